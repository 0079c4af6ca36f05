//! One fault for each row of the older model's steps. Put into a well-formed draft it makes that row
//! answer; put in beside others it shows which of them comes first.

use crate::common::random::Random;
use crate::draft::no;
use crate::faults::{
    change, impossible_code_length, late, put, spoil_length, spoil_unused_hash, spoil_used_hash,
    spoil_zeros, wrong_tail,
};
use crate::model::older::Headers;
use crate::older_draft::{
    impossible_sheet, Kind, OlderDraft, LEGACY_INDEXES, LONGEST_CODE, V2_INDEXES,
};
use crate::tally::PAIR_STEPS;
use std::ops::Range;

/// The number and the part that a row of the steps answers with.
pub type Row = (u32, u32);

type Fault = fn(&mut OlderDraft, &mut Random);

const FAULTS: [Fault; PAIR_STEPS.len()] = [
    sheet,
    legacy_magic,
    legacy_short,
    legacy_code_length,
    legacy_zeros,
    legacy_indexes,
    legacy_verdicts,
    v2_magic,
    v2_short,
    v2_length,
    v2_code_length,
    v2_zeros,
    v2_expiry,
    v2_indexes,
    v2_verdicts,
    s21,
    s22,
    s23_used,
    s23_unused,
];

/// The rows of a form, in their order: without a legacy header there are none about it.
pub fn rows(headers: Headers) -> Vec<Row> {
    let rows = PAIR_STEPS.into_iter();
    rows.filter(|(_, part)| headers == Headers::Pair || *part != 1)
        .collect()
}

/// Puts in the fault that the row finds.
pub fn spoil(row: Row, draft: &mut OlderDraft, random: &mut Random) {
    let i = PAIR_STEPS.iter().position(|step| *step == row);
    FAULTS[i.expect("a row")](draft, random);
}

/// A small draft with up to `most` faults of any row.
pub fn faulty_draft(most: usize, kind: Kind, random: &mut Random) -> OlderDraft {
    let mut draft = OlderDraft::small(kind, random);
    for _ in 0..random.up_to(most) {
        spoil(random.pick(&rows(kind.0)), &mut draft, random);
    }
    draft
}

fn sheet(draft: &mut OlderDraft, random: &mut Random) {
    draft.inputs.keys = impossible_sheet(random);
}

/// A letter of the magic, or all of it: those of the other headers.
fn spoil_magic(header: &mut [u8], random: &mut Random) {
    match random.up_to(2) {
        0 => header[3] = random.pick(b"VBfrA\0"),
        _ => change(&mut header[random.up_to(3)], random),
    }
}

fn legacy_magic(draft: &mut OlderDraft, random: &mut Random) {
    match random.up_to(3) {
        0 => draft.cut = random.up_to(3),
        1 => draft.legacy[3] = b'F',
        _ => spoil_magic(&mut draft.legacy, random),
    }
}

fn legacy_short(draft: &mut OlderDraft, random: &mut Random) {
    let any = 4 + random.up_to(251);
    draft.cut = random.pick(&[4, 11, 64, 255, any]);
}

fn legacy_code_length(draft: &mut OlderDraft, random: &mut Random) {
    let impossible = impossible_code_length(1_024 + LONGEST_CODE as u32, random);
    let too_small = 4 * random.up_to(256) as u32;
    let impossible = [impossible, impossible, 4, 1_024, 1_026, 1_029, too_small];
    put(&mut draft.legacy, 4, random.pick(&impossible));
}

fn legacy_zeros(draft: &mut OlderDraft, random: &mut Random) {
    let any = 11 + random.up_to(52);
    let at = random.pick(&[11, 12, 63, any]);
    change(&mut draft.legacy[at], random);
}

/// One index is 0, or above the number of keys, or equal to another.
fn spoil_indexes(header: &mut [u8], at: usize, keys: u32, random: &mut Random) {
    let i = random.up_to(2);
    let another = (i + 1 + random.up_to(1)) % 3;
    let beyond = 1 + keys.min(255) as usize;
    header[at + i] = match random.up_to(2) {
        0 => 0,
        1 if beyond <= 255 => (beyond + random.up_to(255 - beyond)) as u8,
        _ => header[at + another],
    };
}

fn legacy_indexes(draft: &mut OlderDraft, random: &mut Random) {
    spoil_indexes(&mut draft.legacy, LEGACY_INDEXES, draft.inputs.keys, random);
}

fn legacy_verdicts(draft: &mut OlderDraft, random: &mut Random) {
    draft.inputs.legacy[random.up_to(2)] = no(random);
}

fn v2_magic(draft: &mut OlderDraft, random: &mut Random) {
    match random.up_to(3) {
        0 => draft.cut = draft.legacy.len() + random.up_to(3),
        1 => draft.v2[3] = b'R',
        _ => spoil_magic(&mut draft.v2, random),
    }
}

fn v2_short(draft: &mut OlderDraft, random: &mut Random) {
    let any = 4 + random.up_to(1_019);
    draft.cut = draft.legacy.len() + random.pick(&[4, 16, 0x2e3, 1_023, any]);
}

fn v2_length(draft: &mut OlderDraft, random: &mut Random) {
    spoil_length(&mut draft.v2, random);
}

/// In the pair, mostly one that would be good by itself: another than the legacy header wants.
fn v2_code_length(draft: &mut OlderDraft, random: &mut Random) {
    let mut length = impossible_code_length(LONGEST_CODE as u32, random);
    if let Some(codelen) = draft.legacy.get(4..8) {
        let codelen = u32::from_le_bytes(codelen.try_into().expect("four bytes"));
        let [less, same, more] = [1_028, 0, 1_020].map(|by| codelen.wrapping_sub(by));
        length = random.pick(&[length, less, more, same]);
    }
    put(&mut draft.v2, 12, length);
}

/// The second run of zeros of the V2 header: all from the indexes on.
const V2_ZEROS: Range<usize> = V2_INDEXES + 3..1_024;

fn v2_zeros(draft: &mut OlderDraft, random: &mut Random) {
    spoil_zeros(&mut draft.v2, V2_ZEROS, random);
}

fn v2_expiry(draft: &mut OlderDraft, random: &mut Random) {
    let (expiry, time) = late(random);
    put(&mut draft.v2, 8, expiry);
    draft.inputs.time = time;
}

fn v2_indexes(draft: &mut OlderDraft, random: &mut Random) {
    spoil_indexes(&mut draft.v2, V2_INDEXES, draft.inputs.keys, random);
}

fn v2_verdicts(draft: &mut OlderDraft, random: &mut Random) {
    draft.inputs.v2[random.up_to(2)] = no(random);
}

/// Sets the code length in the headers that are there, so that they agree.
pub fn put_code_length(draft: &mut OlderDraft, length: u32) {
    put(&mut draft.v2, 12, length);
    if !draft.legacy.is_empty() {
        put(&mut draft.legacy, 4, length.wrapping_add(1_024));
    }
}

fn s21(draft: &mut OlderDraft, random: &mut Random) {
    let last = draft.code.len() - 1;
    let any = random.up_to(last);
    match random.one_in(3) {
        true => put_code_length(draft, LONGEST_CODE as u32),
        false => draft.cut = draft.legacy.len() + 1_024 + random.pick(&[0, last, any]),
    }
}

fn s22(draft: &mut OlderDraft, random: &mut Random) {
    draft.tail = wrong_tail(draft.kind.1, random);
}

fn s23_used(draft: &mut OlderDraft, random: &mut Random) {
    spoil_used_hash(&mut draft.v2, &mut draft.code, random);
}

fn s23_unused(draft: &mut OlderDraft, random: &mut Random) {
    spoil_unused_hash(&mut draft.v2, random);
}
