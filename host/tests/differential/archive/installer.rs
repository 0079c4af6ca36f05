//! The installer's calls of the archive, on the words of a record. Guards around the slot are the
//! caller's. A slot that is only read is lent as one that may be written, so that the compiler
//! takes nothing for granted where it is compared afterwards.

use super::{answer, image, words_of, Guarded, BYTE, LONG, WORD};
use crate::model::image::{Inputs, Refusal, Signature};
use crate::model::installer::{Asked, Operation};
use thimmorel::ffi;

pub type Words = [u32; 16];

fn refusal(number: u32) -> Result<(), u32> {
    match number {
        0 => Ok(()),
        number => Err(number),
    }
}

/// The operation, which is always written. After a refusal it must be none.
fn operation(refused: bool, operation: Guarded<u32, 3>) -> Operation {
    let words = operation.written();
    match words {
        [0, 0, 0] => Operation::Nothing,
        [1, at, 0] if !refused => Operation::ErasePage(at as usize),
        [2, at, word] if !refused => Operation::StoreWord(at as usize, word.to_le_bytes()),
        _ => panic!("no operation is {words:?}, where a call refused: {refused}"),
    }
}

/// The refusal, or none, and the record, which is always written.
pub fn begin(slot: &[u8], file_length: usize) -> (Option<u32>, Words) {
    let mut record = Guarded::new(WORD);
    let number = unsafe {
        ffi::thimmorel_begin(
            slot.as_ptr(),
            slot.len() as u64,
            file_length as u64,
            record.pointer(),
        )
    };
    (refusal(number).err(), record.written())
}

pub fn erase(words: &mut Words, slot: &mut [u8]) -> Result<(), u32> {
    let mut record = Guarded::holding(*words, WORD);
    let number =
        unsafe { ffi::thimmorel_erase(record.pointer(), slot.as_mut_ptr(), slot.len() as u64) };
    *words = record.written();
    refusal(number)
}

pub fn plan_erase(words: &mut Words, slot: &mut [u8]) -> Result<Operation, u32> {
    let mut record = Guarded::holding(*words, WORD);
    let mut planned = Guarded::new(WORD);
    let number = unsafe {
        ffi::thimmorel_plan_erase(
            record.pointer(),
            slot.as_mut_ptr(),
            slot.len() as u64,
            planned.pointer(),
        )
    };
    *words = record.written();
    let planned = operation(number != 0, planned);
    refusal(number).map(|()| planned)
}

pub fn fill(words: &mut Words, piece: &[u8], slot: &mut [u8]) -> Result<usize, u32> {
    let mut record = Guarded::holding(*words, WORD);
    let mut taken = Guarded::<u32, 1>::new(WORD);
    let number = unsafe {
        ffi::thimmorel_fill(
            record.pointer(),
            piece.as_ptr(),
            piece.len() as u64,
            slot.as_mut_ptr(),
            slot.len() as u64,
            taken.pointer(),
        )
    };
    *words = record.written();
    let taken = taken.written_if(number == 0);
    taken.map(|[taken]| taken as usize).ok_or(number)
}

pub fn plan_fill(
    words: &mut Words,
    piece: &[u8],
    slot: &mut [u8],
) -> Result<(usize, Operation), u32> {
    let mut record = Guarded::holding(*words, WORD);
    let mut taken = Guarded::<u32, 1>::new(WORD);
    let mut planned = Guarded::new(WORD);
    let number = unsafe {
        ffi::thimmorel_plan_fill(
            record.pointer(),
            piece.as_ptr(),
            piece.len() as u64,
            slot.as_mut_ptr(),
            slot.len() as u64,
            taken.pointer(),
            planned.pointer(),
        )
    };
    *words = record.written();
    let planned = operation(number != 0, planned);
    let taken = taken.written_if(number == 0);
    taken.map(|[taken]| (taken as usize, planned)).ok_or(number)
}

/// The answer to a question. A refused one has a digest of zeros.
fn asked(told: [u32; 3], digest: [u8; 32]) -> Result<[u8; 32], Refusal> {
    let number = told[0];
    if number != 0 {
        assert_eq!(digest, [0; 32], "the digest of a refused question");
    }
    answer(number, told, (number == 0).then_some(digest))
}

/// The answers are always written.
pub fn ask(words: &Words, slot: &mut [u8]) -> Result<Asked, u32> {
    let mut record = Guarded::holding(*words, WORD);
    let mut answers = Guarded::<u32, 6>::new(WORD);
    let mut digests = Guarded::<u8, 64>::new(BYTE);
    let number = unsafe {
        ffi::thimmorel_ask(
            record.pointer(),
            slot.as_mut_ptr(),
            slot.len() as u64,
            answers.pointer(),
            digests.pointer(),
        )
    };
    record.assert_holds(*words);
    let answers = answers.written();
    let Some(digests) = digests.written_if(number == 0) else {
        assert_eq!(
            answers,
            [19, 0, 0, 19, 0, 0],
            "the answers of a refused ask"
        );
        return Err(number);
    };
    let told = |i: usize| std::array::from_fn(|k| answers[3 * i + k]);
    let digest = |i: usize| std::array::from_fn(|k| digests[32 * i + k]);
    Ok(Asked {
        vendor: asked(told(0), digest(0)),
        firmware: asked(told(1), digest(1)),
    })
}

pub fn signatures(words: &Words, slot: &mut [u8]) -> [Signature; 2] {
    let mut record = Guarded::holding(*words, WORD);
    let mut found = Guarded::<u64, 16>::new(LONG);
    unsafe {
        ffi::thimmorel_find_signatures(
            record.pointer(),
            slot.as_mut_ptr(),
            slot.len() as u64,
            found.pointer(),
        );
    }
    record.assert_holds(*words);
    let found = found.written();
    [image::signature(&found[..8]), image::signature(&found[8..])]
}

pub fn close(words: &mut Words, slot: &mut [u8], inputs: &Inputs) -> Result<(), Refusal> {
    let mut record = Guarded::holding(*words, WORD);
    let mut given = Guarded::holding(words_of(inputs), WORD);
    let mut told = Guarded::<u32, 3>::new(WORD);
    let number = unsafe {
        ffi::thimmorel_close(
            record.pointer(),
            slot.as_mut_ptr(),
            slot.len() as u64,
            given.pointer(),
            told.pointer(),
        )
    };
    *words = record.written();
    given.assert_holds(words_of(inputs));
    answer(number, told.written(), (number == 0).then_some(()))
}

pub fn plan_close(
    words: &mut Words,
    slot: &mut [u8],
    inputs: &Inputs,
) -> Result<Operation, Refusal> {
    let mut record = Guarded::holding(*words, WORD);
    let mut given = Guarded::holding(words_of(inputs), WORD);
    let mut told = Guarded::<u32, 3>::new(WORD);
    let mut planned = Guarded::new(WORD);
    let number = unsafe {
        ffi::thimmorel_plan_close(
            record.pointer(),
            slot.as_mut_ptr(),
            slot.len() as u64,
            given.pointer(),
            told.pointer(),
            planned.pointer(),
        )
    };
    *words = record.written();
    given.assert_holds(words_of(inputs));
    let planned = operation(number != 0, planned);
    answer(number, told.written(), (number == 0).then_some(planned))
}

pub fn confirm(words: &mut Words, slot: &mut [u8]) -> Result<(), u32> {
    let mut record = Guarded::holding(*words, WORD);
    let number =
        unsafe { ffi::thimmorel_confirm(record.pointer(), slot.as_mut_ptr(), slot.len() as u64) };
    *words = record.written();
    refusal(number)
}
