//! The check of a loader at its edges: lengths of code and of areas, the bytes after the code,
//! expiries, each hash, and images that are no loaders.

use crate::archive::image as image_archive;
use crate::archive::loader as archive;
use crate::area::{filler, loader_inputs, AreaDraft, AREAS, LONGEST_CODE};
use crate::common::random::Random;
use crate::draft::{expiries_and_times, Draft};
use crate::faults::put;
use crate::loaders::{compare, compare_draft, in_both};
use crate::model::blake2s::blake2s;
use crate::model::image::{Form, Refusal};
use crate::tails::{self, with_tails};
use crate::tally::{cases, Tally, ACCEPTED};

/// The code is there and hash 1 is its digest, so that its length alone can be wrong.
#[test]
fn lengths_of_code() {
    let mut random = Random::new(1201);
    let mut tally = Tally::new("loader checks at the edges of the code length");
    let around = [LONGEST_CODE - 4, LONGEST_CODE, LONGEST_CODE + 4];
    for area in AREAS {
        for length in [0, 2, 3, 4, 5, 6, 8, 60, 64, 68].into_iter().chain(around) {
            let inputs = loader_inputs(&mut random);
            let draft = AreaDraft::with_code(length, inputs, area, &mut random);
            let row = compare_draft(&draft);
            let is_good = length % 4 == 0 && (4..=130_048).contains(&length);
            assert_eq!(row.1 == ACCEPTED, is_good, "{length} bytes of code");
            tally.count(row);
        }
        for length in [131_072, 2_096_128, 1 << 31, u32::MAX - 3, u32::MAX] {
            let mut draft = AreaDraft::small(area, &mut random);
            put(&mut draft.header, 12, length);
            tally.count(compare_draft(&draft));
        }
    }
    tally.assert_exactly(7, &in_both(&["S16", ACCEPTED]));
}

/// Code over two chunks, with the hashes that firmware would have.
#[test]
fn no_second_chunk() {
    let mut random = Random::new(1202);
    for area in AREAS {
        let inputs = loader_inputs(&mut random);
        let mut draft = AreaDraft::with_code(LONGEST_CODE + 4, inputs, area, &mut random);
        let (first, second) = draft.code.split_at(LONGEST_CODE);
        draft.header[32..64].copy_from_slice(&blake2s(first));
        draft.header[64..96].copy_from_slice(&blake2s(second));
        assert_eq!(compare_draft(&draft), (area, "S16"));
    }
}

#[test]
fn cut_at_every_length() {
    let mut random = Random::new(1203);
    let mut tally = Tally::new("checks of cut areas");
    for area in AREAS {
        for _ in 0..cases(20) {
            let draft = AreaDraft::small(area, &mut random);
            let bytes = draft.bytes();
            for length in 0..=bytes.len() {
                let lent = &bytes[..length];
                tally.count(compare(area, lent, &draft.inputs));
                assert_eq!(archive::digest(lent).is_ok(), length >= 1_024);
            }
        }
        let inputs = loader_inputs(&mut random);
        let bytes = AreaDraft::with_code(LONGEST_CODE, inputs, area, &mut random).bytes();
        for length in [1_024, 131_068, 131_071, 131_072, bytes.len()] {
            tally.count(compare(area, &bytes[..length], &inputs));
        }
    }
    tally.assert_exactly(50, &in_both(&["S1", "short", "S21", ACCEPTED]));
}

/// Tails of many lengths, at each alignment, with each byte of them off in turn.
#[test]
fn tails() {
    let mut random = Random::new(1204);
    let mut tally = Tally::new("loader checks of tails");
    for area in AREAS {
        for length in tails::lengths() {
            let mut draft = AreaDraft::small(area, &mut random);
            draft.tail.clear();
            with_tails(
                &draft.bytes(),
                filler(area),
                length,
                &mut random,
                |lent, is_good| {
                    let row = compare(area, lent, &draft.inputs);
                    assert_eq!(row.1 == ACCEPTED, is_good, "a tail of {length} bytes");
                    tally.count(row);
                },
            );
        }
    }
    tally.assert_exactly(80, &in_both(&["S22", ACCEPTED]));
}

/// A tail of a few mebibytes with one byte off, first or last or between.
#[test]
fn long_tails() {
    let mut random = Random::new(1205);
    for area in AREAS {
        let mut draft = AreaDraft::small(area, &mut random);
        let length = 3_000_000 + random.up_to(100);
        draft.tail = vec![filler(area); length];
        assert_eq!(compare_draft(&draft), (area, ACCEPTED));
        for at in [0, random.up_to(length - 1), length - 1] {
            let mut draft = draft.clone();
            draft.tail[at] = !filler(area);
            assert_eq!(compare_draft(&draft), (area, "S22"));
        }
    }
}

#[test]
fn expiries() {
    let mut random = Random::new(1207);
    let mut tally = Tally::new("loader checks of expiries");
    for area in AREAS {
        let mut draft = AreaDraft::small(area, &mut random);
        for (expiry, time, is_good) in expiries_and_times() {
            put(&mut draft.header, 8, expiry);
            draft.inputs.time = time;
            let row = compare_draft(&draft);
            assert_eq!(row.1 == ACCEPTED, is_good, "{time} with expiry {expiry}");
            tally.count(row);
        }
    }
    tally.assert_exactly(10, &in_both(&["S18", ACCEPTED]));
}

/// Each hash with its first or its last byte off, alone and with every later one.
#[test]
fn hashes() {
    let mut random = Random::new(1208);
    for area in AREAS {
        let draft = AreaDraft::small(area, &mut random);
        for first in 1..=16 {
            for second in first..=16 {
                for place in [0, 31] {
                    let mut draft = draft.clone();
                    draft.header[32 * first + place] ^= 0x01;
                    draft.header[32 * second + 31 - place] ^= 0x80;
                    compare_draft(&draft);
                    let refusal = Refusal {
                        number: if first == 1 { 14 } else { 15 },
                        part: 3,
                        chunk: first as u32,
                    };
                    let answer = archive::check(area, &draft.bytes(), &draft.inputs);
                    assert_eq!(answer, Err(refusal));
                }
            }
        }
    }
}

/// Firmware is no loader, and a loader is no firmware.
#[test]
fn images_of_the_other_kind() {
    let mut random = Random::new(1209);
    for (area, form) in AREAS.into_iter().zip([Form::File, Form::Slot]) {
        let no_loader = Refusal {
            number: 1,
            part: 2,
            chunk: 0,
        };
        let firmware = Draft::small(form, &mut random);
        let inputs = loader_inputs(&mut random);
        for bytes in [firmware.bytes(), firmware.bytes().split_off(firmware.v())] {
            compare(area, &bytes, &inputs);
            assert_eq!(archive::check(area, &bytes, &inputs), Err(no_loader));
            assert_eq!(archive::digest(&bytes), Err(no_loader));
        }

        let loader = AreaDraft::small(area, &mut random).bytes();
        let no_firmware = Refusal {
            part: 1,
            ..no_loader
        };
        let answer = image_archive::check(form, &loader, &firmware.inputs);
        assert_eq!(answer, Err(no_firmware));
    }
}
