//! How libFuzzer makes an input of another: by its own mutations, or with a new head or a new list.
//! Its own change little at a time; a new head is another image, for a list that was worth keeping.

use crate::input::splitmix::Random;
use crate::HEAD;
use std::slice;

/// A new list is short, so that what the head gives is not damaged beyond use.
const LONGEST_LIST: usize = 32;

extern "C" {
    fn LLVMFuzzerMutate(bytes: *mut u8, length: usize, room: usize) -> usize;
}

/// The input stands at the start of `room` bytes. Gives the new length.
///
/// # Safety
///
/// libFuzzer calls it, with `room` bytes that nobody else has.
#[no_mangle]
unsafe extern "C" fn LLVMFuzzerCustomMutator(
    bytes: *mut u8,
    length: usize,
    room: usize,
    seed: u32,
) -> usize {
    let mut random = Random::new(seed.into());
    let kind = random.up_to(3);
    if kind > 1 || room < HEAD + LONGEST_LIST {
        return LLVMFuzzerMutate(bytes, length, room);
    }
    let all = slice::from_raw_parts_mut(bytes, room);
    match kind {
        0 => new_head(all, length, &mut random),
        _ => new_list(all, &mut random),
    }
}

fn new_head(all: &mut [u8], length: usize, random: &mut Random) -> usize {
    all[..HEAD].copy_from_slice(&random.bytes(HEAD));
    length.max(HEAD)
}

fn new_list(all: &mut [u8], random: &mut Random) -> usize {
    let length = random.up_to(LONGEST_LIST);
    all[HEAD..HEAD + length].copy_from_slice(&random.bytes(length));
    HEAD + length
}
