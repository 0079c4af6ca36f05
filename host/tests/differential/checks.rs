//! The check of a file and of a slot: random bytes, well-formed images, every row of the S-table
//! hit by a fault of its own, faults in pairs, and the edges of the chunks.

use crate::archive::image as archive;
use crate::common::random::Random;
use crate::draft::{any_inputs, lent_at_odd_place, likely_mask, Draft};
use crate::faults::spoil;
use crate::model::image::{check, Form, Inputs};
use crate::tally::{cases, step, Tally, ACCEPTED, STEPS};

pub const FORMS: [Form; 2] = [Form::File, Form::Slot];

/// Compares the two checks, and tells which row answered.
pub fn compare(form: Form, bytes: &[u8], inputs: &Inputs) -> &'static str {
    let answer = check(form, bytes, inputs);
    let by_archive = archive::check(form, bytes, inputs);
    assert_eq!(
        by_archive,
        answer,
        "{form:?}, {} bytes, {inputs:?}",
        bytes.len()
    );
    step(&answer, bytes.len())
}

/// The same for a draft, whose bytes stand at an odd place and stay as they are.
pub fn compare_draft(form: Form, draft: &Draft) -> &'static str {
    lent_at_odd_place(&draft.bytes(), draft.length(), |lent| {
        compare(form, lent, &draft.inputs)
    })
}

/// Random bytes, of which most are given some of the fields that let a check go on.
fn plausible(inputs: &Inputs, random: &mut Random) -> Vec<u8> {
    let length = random.up_to(2_600);
    let mut bytes = random.bytes(length);
    if bytes.len() >= 4 && !random.one_in(4) {
        bytes[..4].copy_from_slice(b"TRZV");
    }
    if bytes.len() >= 512 && !random.one_in(4) {
        let v = random.pick(&[512, 512, 1_024, 1_536, 2_048, 2_560, 513]);
        bytes[4..8].copy_from_slice(&u32::to_le_bytes(v));
        if let Some(byte) = bytes.get_mut(v as usize - 65) {
            *byte = likely_mask(inputs.m, inputs.n, random);
        }
        bytes[14] = random.up_to(3) as u8;
        bytes[15] = random.pick(&[1, 2, 3, 6, 8, 9]);
        bytes[18..32].fill(0);
    }
    bytes
}

#[test]
fn random_bytes() {
    let mut random = Random::new(101);
    let mut tally = Tally::new("checks of random bytes");
    for _ in 0..cases(600_000) {
        let inputs = any_inputs(&mut random);
        let bytes = plausible(&inputs, &mut random);
        for form in FORMS {
            tally.count(compare(form, &bytes, &inputs));
        }
    }
    tally.assert_seen(100, &STEPS[..13]);
}

#[test]
fn well_formed_images() {
    let mut random = Random::new(102);
    let mut tally = Tally::new("checks of well-formed images");
    for form in FORMS {
        for _ in 0..cases(60_000) {
            tally.count(compare_draft(form, &Draft::small(form, &mut random)));
        }
    }
    tally.assert_exactly(120_000, &[ACCEPTED]);
}

/// Each fault alone is found by its own row, as a file and as a slot.
#[test]
fn every_row() {
    let mut random = Random::new(103);
    for form in FORMS {
        let mut tally = Tally::new("checks of images with one fault");
        for (i, row) in STEPS.iter().enumerate() {
            for _ in 0..cases(4_000) {
                let mut draft = Draft::small(form, &mut random);
                spoil(i, &mut draft, form, &mut random);
                let found = compare_draft(form, &draft);
                assert_eq!(found, *row, "{form:?}");
                tally.count(found);
            }
        }
        tally.assert_exactly(4_000, &STEPS);
    }
}

/// A verdict is yes if its word is 1, and no other word is.
#[test]
fn verdict_words() {
    let mut random = Random::new(106);
    let mut tally = Tally::new("checks with any word as a verdict");
    for form in FORMS {
        for bit in 0..32 {
            for _ in 0..cases(100) {
                let mut draft = Draft::small(form, &mut random);
                let any = random.word();
                let words = [0, 1, 1 << bit, 1 | 1 << bit, u32::MAX, any];
                draft.inputs.vendor = random.pick(&words);
                draft.inputs.firmware = random.pick(&words);
                let row = compare_draft(form, &draft);
                let both = (draft.inputs.vendor, draft.inputs.firmware);
                assert_eq!(row == ACCEPTED, both == (1, 1), "{both:?}");
                tally.count(row);
            }
        }
    }
    tally.assert_exactly(100, &["S11", "S20", ACCEPTED]);
}

/// The order of the rows: two faults, put in in either order.
#[test]
fn every_pair_of_rows() {
    let mut random = Random::new(104);
    let mut tally = Tally::new("checks of images with two faults");
    for form in FORMS {
        for first in 0..STEPS.len() {
            for second in 0..STEPS.len() {
                for _ in 0..cases(300) {
                    let mut draft = Draft::small(form, &mut random);
                    spoil(first, &mut draft, form, &mut random);
                    spoil(second, &mut draft, form, &mut random);
                    tally.count(compare_draft(form, &draft));
                }
            }
        }
    }
    tally.assert_seen(500, &STEPS);
}

/// Lengths of code that end around the ends of chunks 1, 2, 15 and 16.
fn edges(v: usize) -> Vec<usize> {
    let ends = [1, 2, 15, 16].map(|chunks| 131_072 * chunks - 1_024 - v);
    let largest = 2_097_152 - 1_024 - v;
    let around = ends.iter().flat_map(|end| [end - 4, *end, end + 4]);
    around.filter(|length| *length <= largest).collect()
}

/// One draft for each edge.
fn at_edges(form: Form, random: &mut Random) -> Vec<Draft> {
    let count = edges(512).len();
    let draft = |i: usize| Draft::with_code(form, |v| edges(v)[i], random);
    (0..count).map(draft).collect()
}

/// The image as it is, then with a byte of the code off near the ends of the code and of chunk 1,
/// then with a byte of each hash off, used or not.
#[test]
fn edges_of_chunks() {
    let mut random = Random::new(105);
    let mut tally = Tally::new("checks at the edges of chunks");
    for form in FORMS {
        for _ in 0..cases(1) {
            for draft in at_edges(form, &mut random) {
                tally.count(compare_draft(form, &draft));
                let room = 131_072 - 1_024 - draft.v();
                let last = draft.code.len() - 1;
                for at in [0, room - 5, (room - 1).min(last), room.min(last), last] {
                    let mut draft = draft.clone();
                    draft.code[at] ^= 0x80;
                    tally.count(compare_draft(form, &draft));
                }
                for k in 1..=16 {
                    let mut draft = draft.clone();
                    draft.firmware[32 * k + random.up_to(31)] ^= 0x01;
                    tally.count(compare_draft(form, &draft));
                }
            }
        }
    }
    tally.assert_exactly(20, &[ACCEPTED, "S23/14", "S23/15"]);
}
