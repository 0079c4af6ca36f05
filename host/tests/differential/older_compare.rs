//! The older model's calls by the archive and by the model, compared.

use crate::archive::older as archive;
use crate::draft::lent_at_odd_place;
use crate::model::older::{self as model, Headers, Inputs};
use crate::older_draft::{Kind, OlderDraft, KINDS};
use crate::older_faults::Row;
use crate::tally::told;

/// The row of an acceptance.
pub const ACCEPTED: Row = (0, 0);

/// These rows, for one of the four checks.
pub fn in_one(kind: Kind, rows: &[Row]) -> Vec<(Kind, Row)> {
    rows.iter().map(|row| (kind, *row)).collect()
}

/// These rows, for each of the four checks.
pub fn in_each(rows: &[Row]) -> Vec<(Kind, Row)> {
    KINDS.map(|kind| in_one(kind, rows)).concat()
}

/// Compares the two checks and where the code is, and tells which row answered.
pub fn compare(kind: Kind, bytes: &[u8], inputs: &Inputs) -> Row {
    let (headers, form) = kind;
    let answer = model::check(headers, form, bytes, inputs);
    let by_archive = archive::check(headers, form, bytes, inputs);
    assert_eq!(
        by_archive,
        answer,
        "{kind:?}, {} bytes, {inputs:?}",
        bytes.len()
    );
    let row = told(&answer);
    let code = archive::code(headers, bytes, row.0);
    assert_eq!(code, model::code(headers, bytes, &answer), "the code");
    row
}

/// The same for a draft, whose bytes stand at an odd place and stay as they are.
pub fn compare_draft(draft: &OlderDraft) -> Row {
    lent_at_odd_place(&draft.bytes(), draft.length(), |lent| {
        compare(draft.kind, lent, &draft.inputs)
    })
}

/// Compares the three digest questions, and tells what each answered.
pub fn compare_questions(bytes: &[u8]) -> [Row; 3] {
    let [alone, in_pair] = [Headers::V2, Headers::Pair].map(|headers| {
        let answer = archive::v2_digest(headers, bytes);
        assert_eq!(answer, model::v2_digest(headers, bytes), "{headers:?}");
        told(&answer)
    });
    let answer = archive::legacy_digest(bytes);
    assert_eq!(answer, model::legacy_digest(bytes), "the legacy header");
    [alone, in_pair, told(&answer)]
}
