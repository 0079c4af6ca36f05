//! The targets of the fuzzer. Each takes one input, makes the same calls by the archive and by the
//! model, and panics where they differ; the program then ends, and libFuzzer keeps the input.
//! What compares the two and what draws images is that of the host tests.

// Each module has more than the targets take.
#![allow(dead_code)]

extern crate model;

#[path = "../../host/tests/differential/archive/mod.rs"]
mod archive;
#[path = "../../host/tests/differential/area.rs"]
mod area;
#[path = "../../host/tests/differential/area_faults.rs"]
mod area_faults;
#[path = "../../host/tests/differential/areas.rs"]
mod areas;
#[path = "../../host/tests/differential/both.rs"]
mod both;
#[path = "../../host/tests/differential/draft.rs"]
mod draft;
#[path = "../../host/tests/differential/faults.rs"]
mod faults;
#[path = "../../host/tests/differential/landed.rs"]
mod landed;
#[path = "../../host/tests/differential/moment.rs"]
mod moment;
#[path = "../../host/tests/differential/older_compare.rs"]
mod older_compare;
#[path = "../../host/tests/differential/older_draft.rs"]
mod older_draft;
#[path = "../../host/tests/differential/older_faults.rs"]
mod older_faults;
#[path = "../../host/tests/differential/tally.rs"]
mod tally;
#[path = "../../host/tests/differential/written.rs"]
mod written;

/// The modules above draw from `Random`. Here it is the input.
mod common {
    pub mod random {
        pub use crate::input::Input as Random;
    }
}

mod calls;
mod check;
mod input;
mod loaders;
mod mutate;
mod older;
mod records;
mod writers;

use input::Input;

/// The first bytes of an input draw an image and what belongs to it. The rest is a list: of
/// damages, of changes or of calls.
const HEAD: usize = 96;

/// Longer ones are left out, so that an input is quick.
const LONGEST_SLOT: usize = 16_384;

fn head_and_list(bytes: &[u8]) -> (Input, Input) {
    let (head, list) = bytes.split_at(HEAD.min(bytes.len()));
    (Input::over(head), Input::over(list))
}

/// Gives the input at a pointer to a target.
///
/// # Safety
///
/// `bytes` points to `length` bytes, which nobody writes during the call.
unsafe fn give(bytes: *const u8, length: usize, target: fn(Input, Input)) {
    let bytes = match length {
        0 => &[],
        _ => std::slice::from_raw_parts(bytes, length),
    };
    let (head, list) = head_and_list(bytes);
    target(head, list);
}

#[no_mangle]
unsafe extern "C" fn fuzz_check(bytes: *const u8, length: usize) {
    give(bytes, length, check::target);
}

#[no_mangle]
unsafe extern "C" fn fuzz_records(bytes: *const u8, length: usize) {
    give(bytes, length, records::target);
}

#[no_mangle]
unsafe extern "C" fn fuzz_calls(bytes: *const u8, length: usize) {
    give(bytes, length, calls::target);
}

#[no_mangle]
unsafe extern "C" fn fuzz_writers(bytes: *const u8, length: usize) {
    give(bytes, length, writers::target);
}

#[no_mangle]
unsafe extern "C" fn fuzz_loaders(bytes: *const u8, length: usize) {
    give(bytes, length, loaders::target);
}

#[no_mangle]
unsafe extern "C" fn fuzz_older(bytes: *const u8, length: usize) {
    give(bytes, length, older::target);
}
