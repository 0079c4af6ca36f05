//! The checks of damaged loaders: every byte of an area set to every other value, fields set to
//! values at their edges, and several damages at random places.

use crate::archive::loader as archive;
use crate::area::{filler, loader_inputs, AreaDraft, AREAS};
use crate::common::random::Random;
use crate::damages::{damage, with_every_byte_off};
use crate::loaders::{compare, in_both};
use crate::model::loader::{self as model, Area};
use crate::tally::{cases, Tally, ACCEPTED, LOADER_STEPS};

/// Of 1,028 bytes and a tail of 4.
fn smallest(area: Area, random: &mut Random) -> AreaDraft {
    let inputs = loader_inputs(random);
    let mut draft = AreaDraft::with_code(4, inputs, area, random);
    draft.tail = vec![filler(area); 4];
    draft
}

#[test]
fn every_byte_of_an_area() {
    let mut random = Random::new(1301);
    let mut tally = Tally::new("loader checks with one byte off");
    for area in AREAS {
        for _ in 0..cases(1) {
            let draft = smallest(area, &mut random);
            with_every_byte_off(&draft.bytes(), |bytes| {
                tally.count(compare(area, bytes, &draft.inputs));
            });
        }
    }
    let found = [
        "S1", "S14", "S16", "S17", "S19", "S21", "S22", "S23/14", "S23/15", ACCEPTED,
    ];
    tally.assert_seen(100, &in_both(&found));
}

/// Where the fields of the header stand, and the code.
const FIELDS: [usize; 13] = [0, 4, 8, 12, 16, 20, 24, 32, 64, 540, 544, 956, 1_024];

/// Numbers around which a step changes its answer.
const EDGES: [u32; 6] = [512, 1_024, 130_048, 131_072, 2_096_128, u32::MAX - 4];

#[test]
fn some_damages() {
    let mut random = Random::new(1302);
    let mut tally = Tally::new("checks of damaged loaders");
    for area in AREAS {
        for _ in 0..cases(150_000) {
            let draft = AreaDraft::small(area, &mut random);
            let mut bytes = draft.bytes();
            for _ in 0..random.pick(&[1, 1, 2, 4]) {
                damage(&mut bytes, &FIELDS, &EDGES, &mut random);
            }
            tally.count(compare(area, &bytes, &draft.inputs));
            assert_eq!(archive::digest(&bytes), model::digest(&bytes));
        }
    }
    let found = LOADER_STEPS.iter().copied();
    let found: Vec<_> = found.filter(|row| !["S2", "S20"].contains(row)).collect();
    tally.assert_seen(50, &in_both(&[&found[..], &[ACCEPTED]].concat()));
}

/// Larger loaders, so that the bytes of code outnumber those of the header.
#[test]
fn one_byte_of_much_code() {
    let mut random = Random::new(1303);
    let mut tally = Tally::new("loader checks with one byte of much code off");
    for area in AREAS {
        for _ in 0..cases(200) {
            let length = 4 * (1 + random.up_to(32_511));
            let inputs = loader_inputs(&mut random);
            let mut draft = AreaDraft::with_code(length, inputs, area, &mut random);
            draft.code[random.up_to(length - 1)] ^= 1 << random.up_to(7);
            tally.count(compare(area, &draft.bytes(), &draft.inputs));
        }
    }
    tally.assert_exactly(200, &in_both(&["S23/14"]));
}
