//! Target `older`: an image of the older model with some faults, then a list of damages. The four
//! checks, where the code is, the three digest questions and SHA-256 of the bytes are compared.

use crate::archive::older as archive;
use crate::check::damage;
use crate::draft::lent_at_odd_place;
use crate::input::Input;
use crate::model::older::{Headers, Inputs, ROOM_IN_FIRST};
use crate::model::sha256::sha256;
use crate::older_compare::{compare, compare_questions};
use crate::older_draft::{any_older_inputs, Kind, OlderDraft, KINDS};
use crate::older_faults::{rows, spoil};

/// Where the parts of a V2 header begin, and the fields that the steps read.
const PLACES: [usize; 7] = [0, 32, 64, 544, 736, 1_024, 1_028];

/// Numbers at which a step changes its answer.
const EDGES: [u32; 6] = [0, 1_024, 1_028, 129_792, 2_095_872, 2_096_896];

pub fn target(mut head: Input, mut list: Input) {
    let kind = head.pick(&KINDS);
    let mut draft = draft(kind, &mut head);
    for _ in 0..head.pick(&[0, 0, 1, 2]) {
        spoil(head.pick(&rows(kind.0)), &mut draft, &mut head);
    }
    if head.one_in(8) {
        draft.inputs = any_older_inputs(&mut head);
    }

    let (mut bytes, mut length) = (draft.bytes(), draft.length());
    let places = places(kind.0);
    while !list.has_ended() {
        damage(&mut bytes, &mut length, &places, &EDGES, &mut list);
    }
    lent_at_odd_place(&bytes, length, |lent| compare_all(lent, &draft.inputs));
}

/// Mostly a small image, now and then one with code that ends around the end of chunk 1 or 2.
fn draft(kind: Kind, head: &mut Input) -> OlderDraft {
    if !head.one_in(1_024) {
        return OlderDraft::small(kind, head);
    }
    let end = ROOM_IN_FIRST + head.pick(&[0, 131_072]);
    OlderDraft::with_code(end + head.pick(&[0, 4, 8]) - 4, kind, head)
}

fn places(headers: Headers) -> Vec<usize> {
    match headers {
        Headers::V2 => PLACES.to_vec(),
        Headers::Pair => [&[0, 8, 64][..], &PLACES.map(|at| 256 + at)].concat(),
    }
}

/// The bytes are checked as each kind of image, whichever they were made as. Where a caller takes
/// them for checked, the code does not reach past them.
fn compare_all(bytes: &[u8], inputs: &Inputs) {
    for kind in KINDS {
        compare(kind, bytes, inputs);
        let code = archive::code(kind.0, bytes, 0);
        assert!(bytes.get(code.clone()).is_some(), "{code:?}");
    }
    compare_questions(bytes);
    assert_eq!(thimmorel::sha256(bytes), sha256(bytes), "SHA-256");
}
