//! The checks of damaged images of the older model: every byte set to every other value, fields set
//! to values at their edges, and several damages at random places.

use crate::common::random::Random;
use crate::damages::{damage, with_every_byte_off};
use crate::model::image::Form;
use crate::model::older::Headers;
use crate::older_compare::{compare, compare_questions, in_each, in_one, ACCEPTED};
use crate::older_draft::{OlderDraft, KINDS};
use crate::older_faults::rows;
use crate::tally::{cases, Tally};

/// Of 1,028 bytes, or 1,284, and in a slot a tail of 4.
#[test]
fn every_byte_of_an_image() {
    let mut random = Random::new(1801);
    let mut tally = Tally::new("older checks with one byte off");
    for kind in KINDS {
        for _ in 0..cases(1) {
            let mut draft = OlderDraft::with_code(4, kind, &mut random);
            if kind.1 == Form::Slot {
                draft.tail = vec![255; 4];
            }
            with_every_byte_off(&draft.bytes(), |bytes| {
                tally.count((kind, compare(kind, bytes, &draft.inputs)));
            });
        }
    }
    // A code length of more than the bytes is another than the legacy header wants, in the pair.
    let found = [
        (10, 2),
        (11, 2),
        (12, 2),
        (6, 2),
        (8, 2),
        (14, 3),
        (15, 3),
        ACCEPTED,
    ];
    tally.assert_seen(100, &in_each(&found));
    for kind in KINDS {
        let also: &[_] = match kind.0 {
            Headers::V2 => &[(2, 3)],
            Headers::Pair => &[(1, 1), (12, 1), (6, 1), (8, 1)],
        };
        tally.assert_seen(100, &in_one(kind, also));
    }
}

/// Where the fields of a V2 header stand, and the code.
const FIELDS: [usize; 14] = [
    0, 4, 8, 12, 16, 20, 24, 32, 64, 540, 544, 0x2df, 0x2e3, 1_024,
];

/// Where those of a legacy header stand.
const LEGACY_FIELDS: [usize; 5] = [0, 4, 8, 12, 64];

/// Numbers around which a step changes its answer.
const EDGES: [u32; 6] = [256, 1_024, 129_792, 2_095_872, 2_096_896, u32::MAX - 4];

fn fields(headers: Headers) -> Vec<usize> {
    match headers {
        Headers::V2 => FIELDS.to_vec(),
        Headers::Pair => [&LEGACY_FIELDS[..], &FIELDS.map(|at| 256 + at)].concat(),
    }
}

#[test]
fn some_damages() {
    let mut random = Random::new(1802);
    let mut tally = Tally::new("checks of damaged older images");
    for kind in KINDS {
        let fields = fields(kind.0);
        for _ in 0..cases(60_000) {
            let draft = OlderDraft::small(kind, &mut random);
            let mut bytes = draft.bytes();
            for _ in 0..random.pick(&[1, 1, 2, 4]) {
                damage(&mut bytes, &fields, &EDGES, &mut random);
            }
            tally.count((kind, compare(kind, &bytes, &draft.inputs)));
            compare_questions(&bytes);
        }
    }
    // Damage to the bytes alone: not to the key sheet and the verdicts.
    for kind in KINDS {
        let mut found = rows(kind.0);
        found.retain(|(number, _)| ![9, 16].contains(number));
        found.push(ACCEPTED);
        tally.assert_seen(50, &in_one(kind, &found));
    }
}

/// Larger images, so that the bytes of code outnumber those of the headers.
#[test]
fn one_byte_of_much_code() {
    let mut random = Random::new(1803);
    let mut tally = Tally::new("older checks with one byte of much code off");
    for kind in KINDS {
        for _ in 0..cases(80) {
            let length = 4 * (1 + random.up_to(80_000));
            let mut draft = OlderDraft::with_code(length, kind, &mut random);
            draft.code[random.up_to(length - 1)] ^= 1 << random.up_to(7);
            tally.count((kind, compare(kind, &draft.bytes(), &draft.inputs)));
        }
    }
    tally.assert_exactly(80, &in_each(&[(14, 3)]));
}
