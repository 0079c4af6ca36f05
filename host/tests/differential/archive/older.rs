//! The checks of the older model, the place of the code and the digest questions of the archive.

use super::image::{answer_of, places, question};
use super::{Guarded, LONG};
use crate::model::image::{Form, Image, Refusal};
use crate::model::older::{Headers, Inputs};
use std::ops::Range;
use thimmorel::ffi;

/// The words of `struct thimmorel_older_inputs`.
fn words_of(inputs: &Inputs) -> [u32; 8] {
    let Inputs {
        time,
        keys,
        legacy: [l1, l2, l3],
        v2: [v1, v2, v3],
    } = *inputs;
    [time, keys, l1, l2, l3, v1, v2, v3]
}

pub fn check(
    headers: Headers,
    form: Form,
    bytes: &[u8],
    inputs: &Inputs,
) -> Result<Image, Refusal> {
    let call = match (headers, form) {
        (Headers::V2, Form::File) => ffi::thimmorel_check_v2_file,
        (Headers::V2, Form::Slot) => ffi::thimmorel_check_v2_slot,
        (Headers::Pair, Form::File) => ffi::thimmorel_check_pair_file,
        (Headers::Pair, Form::Slot) => ffi::thimmorel_check_pair_slot,
    };
    answer_of(call, bytes, words_of(inputs))
}

pub fn code(headers: Headers, bytes: &[u8], number: u32) -> Range<usize> {
    let call = match headers {
        Headers::V2 => ffi::thimmorel_find_v2_code,
        Headers::Pair => ffi::thimmorel_find_pair_code,
    };
    let mut code = Guarded::<u64, 2>::new(LONG);
    unsafe { call(bytes.as_ptr(), bytes.len() as u64, number, code.pointer()) };
    let [code] = places(&code.written());
    code
}

pub fn v2_digest(headers: Headers, bytes: &[u8]) -> Result<[u8; 32], Refusal> {
    let call = match headers {
        Headers::V2 => ffi::thimmorel_v2_digest,
        Headers::Pair => ffi::thimmorel_pair_v2_digest,
    };
    question(call, bytes)
}

pub fn legacy_digest(bytes: &[u8]) -> Result<[u8; 32], Refusal> {
    question(ffi::thimmorel_pair_legacy_digest, bytes)
}
