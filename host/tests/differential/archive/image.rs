//! The checks, the parts, the digest questions, the places of signatures and the trust reading of
//! the archive.

use super::{answer, words_of, Guarded, BYTE, LONG, WORD};
use crate::model::image::{Form, Image, Inputs, Parts, Refusal, Signature, Trust};
use std::ops::Range;
use thimmorel::ffi;

type Check<Given> =
    unsafe extern "C" fn(*const u8, u64, *const Given, *mut ffi::Answer, *mut ffi::Image) -> u32;

/// What a check answers that is given these words.
pub fn answer_of<Given, const N: usize>(
    call: Check<Given>,
    bytes: &[u8],
    words: [u32; N],
) -> Result<Image, Refusal> {
    let mut given = Guarded::holding(words, WORD);
    let mut told = Guarded::<u32, 3>::new(WORD);
    let mut image = Guarded::<u32, 4>::new(WORD);
    let number = unsafe {
        call(
            bytes.as_ptr(),
            bytes.len() as u64,
            given.pointer(),
            told.pointer(),
            image.pointer(),
        )
    };
    given.assert_holds(words);
    let image = image.written_if(number == 0).map(image_of);
    answer(number, told.written(), image)
}

pub fn check(form: Form, bytes: &[u8], inputs: &Inputs) -> Result<Image, Refusal> {
    let call = match form {
        Form::File => ffi::thimmorel_check_file,
        Form::Slot => ffi::thimmorel_check_slot,
    };
    answer_of(call, bytes, words_of(inputs))
}

/// From the words of a `struct thimmorel_image`.
fn image_of([v, codelen, version, fix]: [u32; 4]) -> Image {
    Image {
        v,
        codelen,
        version: version.to_le_bytes(),
        fix: fix.to_le_bytes(),
    }
}

/// The places that pairs of a start and a length tell.
pub fn places<const N: usize>(numbers: &[u64]) -> [Range<usize>; N] {
    assert_eq!(numbers.len(), 2 * N);
    std::array::from_fn(|i| {
        let (start, length) = (numbers[2 * i], numbers[2 * i + 1]);
        start as usize..(start + length) as usize
    })
}

pub fn parts(bytes: &[u8], number: u32) -> Parts {
    let mut parts = Guarded::<u64, 6>::new(LONG);
    unsafe {
        ffi::thimmorel_find_parts(bytes.as_ptr(), bytes.len() as u64, number, parts.pointer());
    }
    let [string, picture, code] = places(&parts.written());
    Parts {
        string,
        picture,
        code,
    }
}

type Question = unsafe extern "C" fn(*const u8, u64, *mut ffi::Answer, *mut [u8; 32]) -> u32;

pub fn question(call: Question, bytes: &[u8]) -> Result<[u8; 32], Refusal> {
    let mut told = Guarded::<u32, 3>::new(WORD);
    let mut digest = Guarded::<u8, 32>::new(BYTE);
    let number = unsafe {
        call(
            bytes.as_ptr(),
            bytes.len() as u64,
            told.pointer(),
            digest.pointer(),
        )
    };
    answer(number, told.written(), digest.written_if(number == 0))
}

pub fn vendor_digest(bytes: &[u8]) -> Result<[u8; 32], Refusal> {
    question(ffi::thimmorel_vendor_digest, bytes)
}

pub fn firmware_digest(bytes: &[u8]) -> Result<[u8; 32], Refusal> {
    question(ffi::thimmorel_firmware_digest, bytes)
}

/// From the eight numbers of a `struct thimmorel_signature`.
pub fn signature(numbers: &[u64]) -> Signature {
    let [sigmask, sig, keys] = places(&numbers[..6]);
    let word = |number: u64| u32::try_from(number).expect("a number of keys");
    Signature {
        sigmask,
        sig,
        keys,
        m: word(numbers[6]),
        n: word(numbers[7]),
    }
}

type Finding = unsafe extern "C" fn(*const u8, u64, *mut ffi::Signature);

fn find(call: Finding, bytes: &[u8]) -> Signature {
    let mut found = Guarded::<u64, 8>::new(LONG);
    unsafe { call(bytes.as_ptr(), bytes.len() as u64, found.pointer()) };
    signature(&found.written())
}

pub fn vendor_signature(bytes: &[u8]) -> Signature {
    find(ffi::thimmorel_find_vendor_signature, bytes)
}

pub fn firmware_signature(bytes: &[u8]) -> Signature {
    find(ffi::thimmorel_find_firmware_signature, bytes)
}

fn bit(word: u32) -> bool {
    assert!(word <= 1, "a yes or no is {word}");
    word == 1
}

pub fn trust(bytes: &[u8]) -> Trust {
    let mut trust = Guarded::<u32, 5>::new(WORD);
    unsafe { ffi::thimmorel_read_trust(bytes.as_ptr(), bytes.len() as u64, trust.pointer()) };
    let [seconds, red, click, string, secret] = trust.written();
    Trust {
        seconds,
        red: bit(red),
        click: bit(click),
        string: bit(string),
        secret: bit(secret),
    }
}
