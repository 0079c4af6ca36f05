//! One fault for each row of the S-table. Put into a well-formed draft it makes that row answer;
//! put in beside others it shows which of them comes first.

use crate::common::random::Random;
use crate::draft::{good_mask, no, Draft};
use crate::model::image::Form;
use crate::tally::STEPS;
use std::ops::Range;

type Fault = fn(&mut Draft, Form, &mut Random);

const FAULTS: [Fault; STEPS.len()] = [
    s1, s2, s3, s4, s5, s6, s7, s8, s9, s10, s11, s12, s13, s14, s16, s17, s18, s19, s20, s21, s22,
    s23_used, s23_unused,
];

/// Puts in the fault that `STEPS[i]` finds.
pub fn spoil(i: usize, draft: &mut Draft, form: Form, random: &mut Random) {
    FAULTS[i](draft, form, random);
}

/// A small draft with up to `most` faults of any row.
pub fn faulty_draft(most: usize, form: Form, random: &mut Random) -> Draft {
    let mut draft = Draft::small(form, random);
    for _ in 0..random.up_to(most) {
        let fault = random.up_to(STEPS.len() - 1);
        spoil(fault, &mut draft, form, random);
    }
    draft
}

pub fn put(bytes: &mut [u8], at: usize, value: u32) {
    bytes[at..at + 4].copy_from_slice(&value.to_le_bytes());
}

/// Changes the byte to another.
pub fn change(byte: &mut u8, random: &mut Random) {
    *byte ^= 1 + random.up_to(254) as u8;
}

/// A mask with a bit at `n` or higher, or with fewer or more than `m` ones. Of those with such a bit
/// half are made with `m` ones, so that nothing else is wrong with them.
pub fn bad_mask(m: u32, n: u32, random: &mut Random) -> u8 {
    if n < 8 && random.one_in(2) {
        let beyond = 1 << (n as usize + random.up_to(7 - n as usize));
        return match random.one_in(2) {
            true => good_mask((m - 1).min(n), n, random) | beyond,
            false => random.byte() | beyond,
        };
    }
    loop {
        let mask = random.byte() & ((1_u32 << n) - 1) as u8;
        if mask.count_ones() != m {
            return mask;
        }
    }
}

fn s1(draft: &mut Draft, _: Form, random: &mut Random) {
    match random.one_in(3) {
        true => draft.cut = random.up_to(3),
        false => change(&mut draft.vendor[random.up_to(3)], random),
    }
}

pub fn impossible_policy(random: &mut Random) -> (u32, u32) {
    let any = 9 + random.up_to(1_000_000) as u32;
    let impossible = [
        (0, 3),
        (0, 0),
        (4, 3),
        (8, 7),
        (1, 9),
        (9, 9),
        (1, 0),
        (1, any),
        (any, any),
    ];
    random.pick(&impossible)
}

fn s2(draft: &mut Draft, _: Form, random: &mut Random) {
    (draft.inputs.m, draft.inputs.n) = impossible_policy(random);
}

fn s3(draft: &mut Draft, _: Form, random: &mut Random) {
    draft.cut = 4 + random.up_to(507);
}

fn s4(draft: &mut Draft, _: Form, random: &mut Random) {
    let no_multiple = random.word() | (1 << random.up_to(8));
    let too_large = 66_048 + 512 * random.up_to(100_000) as u32;
    let impossible = [
        0,
        256,
        511,
        513,
        65_535,
        66_048,
        0xffff_fe00,
        no_multiple,
        too_large,
    ];
    put(&mut draft.vendor, 4, random.pick(&impossible));
}

fn s5(draft: &mut Draft, _: Form, random: &mut Random) {
    let v = 1_024 + 512 * random.up_to(126);
    put(&mut draft.vendor, 4, v as u32);
    let any = 512 + random.up_to(v - 513);
    draft.cut = random.pick(&[512, v - 1, any]);
}

fn s6(draft: &mut Draft, _: Form, random: &mut Random) {
    let (m, n) = (draft.fields.m as u8, draft.fields.n as u8);
    let impossible = [
        (0, n),
        (n + 1, n),
        (255, n),
        (m, 0),
        (0, 0),
        (1, 9),
        (9, 9),
        (m, 255),
    ];
    (draft.vendor[14], draft.vendor[15]) = random.pick(&impossible);
}

/// A header of 512 bytes has room for strings up to 411 − 32 n.
fn s7(draft: &mut Draft, _: Form, random: &mut Random) {
    let n = 5 + random.up_to(3);
    let least = 412 - 32 * n;
    put(&mut draft.vendor, 4, 512);
    draft.vendor[14] = 1 + random.up_to(n - 1) as u8;
    draft.vendor[15] = n as u8;
    draft.vendor[32 + 32 * n] = (least + random.up_to(255 - least)) as u8;
}

fn s8(draft: &mut Draft, _: Form, random: &mut Random) {
    let end = 33 + draft.fields.keys.len() + draft.fields.string.len();
    let padding = end.next_multiple_of(4) - end;
    let at = match padding != 0 && random.one_in(2) {
        true => end + random.up_to(padding - 1),
        false => 18 + random.up_to(13),
    };
    change(&mut draft.vendor[at], random);
}

/// An expiry and a time just above it, or further.
pub fn late(random: &mut Random) -> (u32, u32) {
    let expiry = 1 + random.up_to(1_000_000) as u32;
    (expiry, random.pick(&[expiry + 1, expiry + 1_000, u32::MAX]))
}

fn s9(draft: &mut Draft, _: Form, random: &mut Random) {
    let (expiry, time) = late(random);
    put(&mut draft.vendor, 8, expiry);
    draft.inputs.time = time;
}

fn s10(draft: &mut Draft, _: Form, random: &mut Random) {
    let at = draft.v() - 65;
    let n = draft.inputs.n.min(8);
    draft.vendor[at] = bad_mask(draft.inputs.m.max(1), n, random);
}

fn s11(draft: &mut Draft, _: Form, random: &mut Random) {
    draft.inputs.vendor = no(random);
}

fn s12(draft: &mut Draft, _: Form, random: &mut Random) {
    let any = random.up_to(1_023);
    draft.cut = draft.v() + random.pick(&[0, 1, 3, 4, 1_023, any]);
}

fn s13(draft: &mut Draft, _: Form, random: &mut Random) {
    change(&mut draft.firmware[random.up_to(3)], random);
}

/// The header's length.
pub fn spoil_length(header: &mut [u8], random: &mut Random) {
    let any = random.word() | 1;
    let wrong = [0, 512, 1_020, 1_023, 1_025, 2_048, 1_024 + 65_536, any];
    put(header, 4, random.pick(&wrong));
}

fn s14(draft: &mut Draft, _: Form, random: &mut Random) {
    spoil_length(&mut draft.firmware, random);
}

/// A code length that is 0, not a multiple of 4, or above the largest.
pub fn impossible_code_length(largest: u32, random: &mut Random) -> u32 {
    let no_multiple = random.word() | (1 + random.up_to(2) as u32);
    let too_large = largest + 4 + 4 * random.up_to(1_000_000) as u32;
    let impossible = [
        0,
        1,
        2,
        3,
        6,
        largest + 1,
        largest + 4,
        u32::MAX - 3,
        u32::MAX,
        no_multiple,
        too_large,
    ];
    random.pick(&impossible)
}

fn largest_code(draft: &Draft) -> u32 {
    (2_097_152 - 1_024 - draft.v()) as u32
}

fn s16(draft: &mut Draft, _: Form, random: &mut Random) {
    let impossible = impossible_code_length(largest_code(draft), random);
    put(&mut draft.firmware, 12, impossible);
}

/// A byte that must be zero: one from 24 to 31, or one of a second run.
pub fn spoil_zeros(header: &mut [u8], second: Range<usize>, random: &mut Random) {
    let (first, last) = (second.start, second.end - 1);
    let (before, after) = (24 + random.up_to(7), first + random.up_to(last - first));
    let at = random.pick(&[24, before, 31, first, after, last]);
    change(&mut header[at], random);
}

/// The second run of zeros of the firmware header and of a loader's.
pub const FIRMWARE_ZEROS: Range<usize> = 544..959;

fn s17(draft: &mut Draft, _: Form, random: &mut Random) {
    spoil_zeros(&mut draft.firmware, FIRMWARE_ZEROS, random);
}

/// The vendor header is made to last, since both headers meet the same time.
fn s18(draft: &mut Draft, _: Form, random: &mut Random) {
    let (expiry, time) = late(random);
    put(&mut draft.vendor, 8, 0);
    put(&mut draft.firmware, 8, expiry);
    draft.inputs.time = time;
}

fn s19(draft: &mut Draft, _: Form, random: &mut Random) {
    draft.firmware[959] = bad_mask(draft.fields.m, draft.fields.n, random);
}

fn s20(draft: &mut Draft, _: Form, random: &mut Random) {
    draft.inputs.firmware = no(random);
}

fn s21(draft: &mut Draft, _: Form, random: &mut Random) {
    let (last, largest) = (draft.code.len() - 1, largest_code(draft));
    let any = random.up_to(last);
    match random.one_in(3) {
        true => put(&mut draft.firmware, 12, largest),
        false => draft.cut = draft.v() + 1_024 + random.pick(&[0, last, any]),
    }
}

/// A tail that must not be there. In a file even erased bytes are too many.
pub fn wrong_tail(form: Form, random: &mut Random) -> Vec<u8> {
    let mut tail = vec![255; 1 + random.up_to(600)];
    if form == Form::Slot {
        let last = tail.len() - 1;
        let any = random.up_to(last);
        change(&mut tail[random.pick(&[0, last, any])], random);
    }
    tail
}

fn s22(draft: &mut Draft, form: Form, random: &mut Random) {
    draft.tail = wrong_tail(form, random);
}

/// A byte of the code, or of the hash of chunk 1, which always holds code.
pub fn spoil_used_hash(header: &mut [u8], code: &mut [u8], random: &mut Random) {
    let last = code.len() - 1;
    match random.one_in(3) {
        true => change(&mut header[32 + random.up_to(31)], random),
        false => change(&mut code[random.up_to(last)], random),
    }
}

fn s23_used(draft: &mut Draft, _: Form, random: &mut Random) {
    spoil_used_hash(&mut draft.firmware, &mut draft.code, random);
}

/// A byte of a hash that is all zero. With all sixteen chunks in use there is none.
pub fn spoil_unused_hash(header: &mut [u8], random: &mut Random) {
    let unused: Vec<usize> = (1..=16)
        .filter(|k| header[32 * k..32 * k + 32] == [0; 32])
        .collect();
    let k = random.pick(&unused);
    header[32 * k + random.up_to(31)] = 1 + random.up_to(254) as u8;
}

fn s23_unused(draft: &mut Draft, _: Form, random: &mut Random) {
    spoil_unused_hash(&mut draft.firmware, random);
}
