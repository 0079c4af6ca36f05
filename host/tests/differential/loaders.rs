//! The check of a loader on a card and in the internal area, and the digest question: random bytes,
//! well-formed areas, every row of the steps hit by a fault of its own, and faults in pairs.

use crate::archive::loader as archive;
use crate::area::{any_loader_inputs, verdict, AreaDraft, AREAS};
use crate::area_faults::spoil;
use crate::common::random::Random;
use crate::draft::{lent_at_odd_place, likely_mask};
use crate::model::loader::{self as model, Area, Inputs};
use crate::tally::{cases, loader_step, told, Tally, ACCEPTED, LOADER_STEPS};

/// The area, and the row of its steps that answered.
pub type Row = (Area, &'static str);

/// These rows, for each of the two areas.
pub fn in_both(rows: &[&'static str]) -> Vec<Row> {
    let each = AREAS
        .iter()
        .flat_map(|area| rows.iter().map(|row| (*area, *row)));
    each.collect()
}

/// Compares the two checks, and tells which row answered.
pub fn compare(area: Area, bytes: &[u8], inputs: &Inputs) -> Row {
    let answer = model::check(area, bytes, inputs);
    let by_archive = archive::check(area, bytes, inputs);
    assert_eq!(
        by_archive,
        answer,
        "{area:?}, {} bytes, {inputs:?}",
        bytes.len()
    );
    (area, loader_step(&answer))
}

/// The same for a draft, whose bytes stand at an odd place and stay as they are.
pub fn compare_draft(draft: &AreaDraft) -> Row {
    lent_at_odd_place(&draft.bytes(), draft.length(), |lent| {
        compare(draft.area, lent, &draft.inputs)
    })
}

/// Random bytes, of which most are given some of the fields that let a check go on.
fn plausible(inputs: &Inputs, random: &mut Random) -> Vec<u8> {
    let length = random.up_to(2_000);
    let mut bytes = random.bytes(length);
    if bytes.len() >= 4 && !random.one_in(4) {
        bytes[..4].copy_from_slice(b"TRZB");
    }
    if bytes.len() >= 1_024 && !random.one_in(4) {
        bytes[4..8].copy_from_slice(&1_024_u32.to_le_bytes());
        let codelen = random.pick(&[0, 3, 4, 100, 256, 130_048, 130_052]);
        bytes[12..16].copy_from_slice(&u32::to_le_bytes(codelen));
        bytes[8..12].fill(random.pick(&[0, 1, 255]));
        if !random.one_in(4) {
            bytes[24..32].fill(0);
            bytes[544..959].fill(0);
        }
        bytes[959] = likely_mask(inputs.m, inputs.n, random);
    }
    bytes
}

#[test]
fn random_bytes() {
    let mut random = Random::new(1101);
    let mut tally = Tally::new("loader checks of random bytes");
    for _ in 0..cases(100_000) {
        let inputs = any_loader_inputs(&mut random);
        let bytes = plausible(&inputs, &mut random);
        for area in AREAS {
            tally.count(compare(area, &bytes, &inputs));
        }
        assert_eq!(archive::digest(&bytes), model::digest(&bytes));
    }
    tally.assert_seen(100, &in_both(&LOADER_STEPS[..11]));
}

#[test]
fn well_formed_loaders() {
    let mut random = Random::new(1102);
    let mut tally = Tally::new("checks of well-formed loaders");
    for area in AREAS {
        for _ in 0..cases(20_000) {
            tally.count(compare_draft(&AreaDraft::small(area, &mut random)));
        }
    }
    tally.assert_exactly(20_000, &in_both(&[ACCEPTED]));
}

/// Each fault alone is found by its own row, on a card and in the internal area.
#[test]
fn every_row() {
    let mut random = Random::new(1103);
    let mut tally = Tally::new("checks of loaders with one fault");
    for area in AREAS {
        for (i, row) in LOADER_STEPS.iter().enumerate() {
            for _ in 0..cases(2_000) {
                let mut draft = AreaDraft::small(area, &mut random);
                spoil(i, &mut draft, &mut random);
                let found = compare_draft(&draft);
                assert_eq!(found, (area, *row));
                tally.count(found);
            }
        }
    }
    tally.assert_exactly(2_000, &in_both(&LOADER_STEPS));
}

/// The order of the rows: of two faults, the one whose row is earlier answers. It is put in last,
/// since some faults are in the same field.
#[test]
fn the_earlier_of_two_rows_answers() {
    let mut random = Random::new(1104);
    let mut tally = Tally::new("checks of loaders with two faults");
    for area in AREAS {
        for later in 0..LOADER_STEPS.len() {
            for (earlier, row) in LOADER_STEPS[..later].iter().enumerate() {
                for _ in 0..cases(100) {
                    let mut draft = AreaDraft::small(area, &mut random);
                    spoil(later, &mut draft, &mut random);
                    spoil(earlier, &mut draft, &mut random);
                    let found = compare_draft(&draft);
                    assert_eq!(found, (area, *row), "{draft:?}");
                    tally.count(found);
                }
            }
        }
    }
    tally.assert_exactly(100, &in_both(&LOADER_STEPS[..12]));
}

/// Three faults, put in in any order.
#[test]
fn three_faults() {
    let mut random = Random::new(1105);
    let mut tally = Tally::new("checks of loaders with three faults");
    for area in AREAS {
        for _ in 0..cases(50_000) {
            let mut draft = AreaDraft::small(area, &mut random);
            for _ in 0..3 {
                spoil(
                    random.up_to(LOADER_STEPS.len() - 1),
                    &mut draft,
                    &mut random,
                );
            }
            tally.count(compare_draft(&draft));
        }
    }
    // The last row answers only where all three faults are its own: about once in 2,200 cases.
    tally.assert_seen(5, &in_both(&LOADER_STEPS));
}

/// A verdict is yes if its word is 1, and no other word is. That on the other area is not looked at.
#[test]
fn verdict_words() {
    let mut random = Random::new(1106);
    let mut tally = Tally::new("checks of loaders with any word as a verdict");
    for area in AREAS {
        for bit in 0..32 {
            for _ in 0..cases(60) {
                let mut draft = AreaDraft::small(area, &mut random);
                let any = random.word();
                let words = [0, 1, 1, 2, 1 << bit, 1 | 1 << bit, u32::MAX, any];
                draft.inputs.card = random.pick(&words);
                draft.inputs.internal = random.pick(&words);
                let row = compare_draft(&draft);
                let own = *verdict(area, &mut draft.inputs);
                assert_eq!(row.1 == ACCEPTED, own == 1, "{:?}", draft.inputs);
                tally.count(row);
            }
        }
    }
    tally.assert_exactly(100, &in_both(&["S20", ACCEPTED]));
}

#[test]
fn digests_to_sign() {
    let mut random = Random::new(1107);
    let mut tally = Tally::new("loader digest questions");
    for _ in 0..cases(50_000) {
        let area = random.pick(&AREAS);
        let mut draft = AreaDraft::small(area, &mut random);
        for _ in 0..random.up_to(2) {
            spoil(
                random.up_to(LOADER_STEPS.len() - 1),
                &mut draft,
                &mut random,
            );
        }
        let bytes = &draft.bytes()[..draft.length()];
        let answer = archive::digest(bytes);
        assert_eq!(answer, model::digest(bytes));
        tally.count(told(&answer));
    }
    let answers = [(0, 0), (1, 2), (2, 2), (11, 2), (12, 2), (6, 2)];
    tally.assert_exactly(1_000, &answers);
}

/// A question asks for nothing behind the header, and the signature is not a part of what is signed.
/// Every other byte of the header is.
#[test]
fn what_a_digest_is_over() {
    let mut random = Random::new(1108);
    for area in AREAS {
        for _ in 0..cases(20) {
            let mut header = AreaDraft::small(area, &mut random).header;
            let digest = archive::digest(&header).expect("it is well-formed");
            for at in 959..1_024 {
                header[at] ^= 0x81;
                assert_eq!(archive::digest(&header), Ok(digest));
            }
            for at in [8, 11, 16, 20, 23, 32, 63, 64, 543] {
                header[at] ^= 0x81;
                let other = archive::digest(&header).expect("it is well-formed");
                assert_ne!(other, digest);
                header[at] ^= 0x81;
            }
        }
    }
}
