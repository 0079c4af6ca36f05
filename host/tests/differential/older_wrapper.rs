//! The safe wrapper of the older model's calls says what the model says.

use crate::common::random::Random;
use crate::model::image::{self, Form, YES};
use crate::model::older::{self as model, Headers, Inputs};
use crate::older_compare::{in_one, ACCEPTED};
use crate::older_draft::{Kind, KINDS};
use crate::older_faults::{faulty_draft, rows};
use crate::tally::{cases, told, Tally};
use crate::wrapper::{refusal, version};
use thimmorel::{OlderImage, OlderInputs, Part, Reason, Refusal};

fn inputs(inputs: &Inputs) -> OlderInputs {
    OlderInputs {
        time: inputs.time,
        keys: inputs.keys,
        legacy_verdicts: inputs.legacy.map(|verdict| verdict == YES),
        v2_verdicts: inputs.v2.map(|verdict| verdict == YES),
    }
}

/// Part 1 is the legacy header, and part 2 the V2 header.
fn older_refusal(told: image::Refusal) -> Refusal {
    let part = match told.part {
        1 => Some(Part::LegacyHeader),
        2 => Some(Part::V2Header),
        _ => refusal(told).part,
    };
    Refusal {
        part,
        ..refusal(told)
    }
}

fn check(kind: Kind, bytes: &[u8], inputs: OlderInputs) -> Result<OlderImage<'_>, Refusal> {
    match kind {
        (Headers::V2, Form::File) => thimmorel::check_v2_file(bytes, inputs),
        (Headers::V2, Form::Slot) => thimmorel::check_v2_slot(bytes, inputs),
        (Headers::Pair, Form::File) => thimmorel::check_pair_file(bytes, inputs),
        (Headers::Pair, Form::Slot) => thimmorel::check_pair_slot(bytes, inputs),
    }
}

/// The model's acceptance in the wrapper's types.
fn image<'a>(headers: Headers, bytes: &'a [u8], told: &image::Image) -> OlderImage<'a> {
    OlderImage {
        version: version(told.version),
        fix_version: version(told.fix),
        code: &bytes[model::code(headers, bytes, &Ok(*told))],
    }
}

/// The code is a part of the bytes that were lent, not a copy.
#[test]
fn checks() {
    let mut random = Random::new(2001);
    let mut tally = Tally::new("older checks by the wrapper");
    for _ in 0..cases(10_000) {
        for kind in KINDS {
            let draft = faulty_draft(1, kind, &mut random);
            let bytes = &draft.bytes()[..draft.length()];
            let answer = check(kind, bytes, inputs(&draft.inputs));
            let by_model = model::check(kind.0, kind.1, bytes, &draft.inputs);
            tally.count((kind, told(&by_model)));
            let by_model = by_model.map(|told| image(kind.0, bytes, &told));
            assert_eq!(answer, by_model.map_err(older_refusal));
            if let (Ok(answer), Ok(by_model)) = (answer, by_model) {
                assert_eq!(answer.code.as_ptr(), by_model.code.as_ptr());
            }
        }
    }
    for kind in KINDS {
        let found = [&[ACCEPTED], &rows(kind.0)[..]].concat();
        tally.assert_seen(100, &in_one(kind, &found));
    }
}

#[test]
fn questions() {
    let mut random = Random::new(2002);
    for _ in 0..cases(10_000) {
        let draft = faulty_draft(1, random.pick(&KINDS), &mut random);
        let bytes = &draft.bytes()[..draft.length()];
        let v2 = model::v2_digest(Headers::V2, bytes).map_err(older_refusal);
        assert_eq!(thimmorel::v2_digest(bytes), v2);
        let v2 = model::v2_digest(Headers::Pair, bytes).map_err(older_refusal);
        assert_eq!(thimmorel::pair_v2_digest(bytes), v2);
        let legacy = model::legacy_digest(bytes).map_err(older_refusal);
        assert_eq!(thimmorel::pair_legacy_digest(bytes), legacy);
    }
}

#[test]
fn how_a_refused_image_reads() {
    let refused = |reason, part| Refusal {
        reason,
        part: Some(part),
        chunk: None,
    };
    assert_eq!(
        refused(Reason::FirmwareMagic, Part::V2Header).to_string(),
        "refused with 10 in the V2 header: \
         the firmware header, or the V2 header, does not start with TRZF"
    );
    assert_eq!(
        refused(Reason::NotZero, Part::LegacyHeader).to_string(),
        "refused with 6 in the legacy header: a byte of the header that must be zero is not"
    );
}

/// `Debug` tells how many bytes there are, and not all of them.
#[test]
fn how_an_image_is_shown() {
    let image = OlderImage {
        version: version([1, 8, 0, 0]),
        fix_version: version([1, 8, 0, 0]),
        code: &[0; 2_000],
    };
    let shown = format!("{image:?}");
    assert!(shown.starts_with("OlderImage { version: "), "{shown}");
    assert!(shown.ends_with("code: 2000 bytes }"), "{shown}");
}
