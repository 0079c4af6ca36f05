//! One fault for each row of a loader's steps. Put into a well-formed draft it makes that row
//! answer; put in beside others it shows which of them comes first.

use crate::area::{filler, verdict, AreaDraft, LONGEST_CODE};
use crate::common::random::Random;
use crate::draft::no;
use crate::faults::{
    bad_mask, change, impossible_code_length, impossible_policy, late, put, spoil_length,
    spoil_unused_hash, spoil_used_hash, spoil_zeros, FIRMWARE_ZEROS,
};
use crate::tally::LOADER_STEPS;

type Fault = fn(&mut AreaDraft, &mut Random);

const FAULTS: [Fault; LOADER_STEPS.len()] = [
    s1, s2, short, s14, s16, s17, s18, s19, s20, s21, s22, s23_used, s23_unused,
];

/// Puts in the fault that `LOADER_STEPS[i]` finds.
pub fn spoil(i: usize, draft: &mut AreaDraft, random: &mut Random) {
    FAULTS[i](draft, random);
}

fn s1(draft: &mut AreaDraft, random: &mut Random) {
    match random.up_to(3) {
        0 => draft.cut = random.up_to(3),
        1 => draft.header[3] = random.pick(b"VFRbA\0"),
        _ => change(&mut draft.header[random.up_to(3)], random),
    }
}

fn s2(draft: &mut AreaDraft, random: &mut Random) {
    (draft.inputs.m, draft.inputs.n) = impossible_policy(random);
}

fn short(draft: &mut AreaDraft, random: &mut Random) {
    let any = 4 + random.up_to(1_019);
    draft.cut = random.pick(&[4, 16, 958, 1_023, any]);
}

fn s14(draft: &mut AreaDraft, random: &mut Random) {
    spoil_length(&mut draft.header, random);
}

fn s16(draft: &mut AreaDraft, random: &mut Random) {
    let impossible = impossible_code_length(LONGEST_CODE as u32, random);
    let sixteen_chunks = 2_096_128;
    let impossible = [impossible, impossible, 131_072, sixteen_chunks];
    put(&mut draft.header, 12, random.pick(&impossible));
}

fn s17(draft: &mut AreaDraft, random: &mut Random) {
    spoil_zeros(&mut draft.header, FIRMWARE_ZEROS, random);
}

fn s18(draft: &mut AreaDraft, random: &mut Random) {
    let (expiry, time) = late(random);
    put(&mut draft.header, 8, expiry);
    draft.inputs.time = time;
}

fn s19(draft: &mut AreaDraft, random: &mut Random) {
    let n = draft.inputs.n.min(8);
    draft.header[959] = bad_mask(draft.inputs.m.max(1), n, random);
}

fn s20(draft: &mut AreaDraft, random: &mut Random) {
    *verdict(draft.area, &mut draft.inputs) = no(random);
}

fn s21(draft: &mut AreaDraft, random: &mut Random) {
    let last = draft.code.len() - 1;
    let any = random.up_to(last);
    match random.one_in(3) {
        true => put(&mut draft.header, 12, LONGEST_CODE as u32),
        false => draft.cut = 1_024 + random.pick(&[0, last, any]),
    }
}

/// One byte of the tail is not as it must be: as in the other area, or any other.
fn s22(draft: &mut AreaDraft, random: &mut Random) {
    let filler = filler(draft.area);
    draft.tail = vec![filler; 1 + random.up_to(600)];
    let last = draft.tail.len() - 1;
    let any = random.up_to(last);
    let byte = &mut draft.tail[random.pick(&[0, last, any])];
    match random.one_in(2) {
        true => *byte = !filler,
        false => change(byte, random),
    }
}

fn s23_used(draft: &mut AreaDraft, random: &mut Random) {
    spoil_used_hash(&mut draft.header, &mut draft.code, random);
}

fn s23_unused(draft: &mut AreaDraft, random: &mut Random) {
    spoil_unused_hash(&mut draft.header, random);
}
