//! The checks of loaders, the digest question and the choice of the archive.

use super::image::{answer_of, question};
use super::{answer, Guarded, LONG, WORD};
use crate::model::image::{Image, Refusal};
use crate::model::loader::{Area, Chosen, Inputs};
use thimmorel::ffi;

/// The words of `struct thimmorel_loader_inputs`.
fn words_of(inputs: &Inputs) -> [u32; 5] {
    let Inputs {
        time,
        m,
        n,
        card,
        internal,
    } = *inputs;
    [time, m, n, card, internal]
}

pub fn check(area: Area, bytes: &[u8], inputs: &Inputs) -> Result<Image, Refusal> {
    let call = match area {
        Area::Card => ffi::thimmorel_check_card,
        Area::Internal => ffi::thimmorel_check_internal,
    };
    answer_of(call, bytes, words_of(inputs))
}

pub fn digest(bytes: &[u8]) -> Result<[u8; 32], Refusal> {
    question(ffi::thimmorel_loader_digest, bytes)
}

/// The loader, which is always written. Without an area its place must be empty.
fn chosen(loader: Guarded<u64, 3>) -> Option<Chosen> {
    let words = loader.written();
    let [area, start, length] = words;
    let area = match area {
        1 => Area::Card,
        2 => Area::Internal,
        _ => {
            assert_eq!(words, [0; 3], "where there is no loader");
            return None;
        }
    };
    let place = start as usize..(start + length) as usize;
    Some(Chosen { area, place })
}

pub fn choose(card: &[u8], internal: &[u8], inputs: &Inputs) -> Result<Chosen, Refusal> {
    let mut given = Guarded::holding(words_of(inputs), WORD);
    let mut told = Guarded::<u32, 3>::new(WORD);
    let mut loader = Guarded::<u64, 3>::new(LONG);
    let number = unsafe {
        ffi::thimmorel_choose_loader(
            card.as_ptr(),
            card.len() as u64,
            internal.as_ptr(),
            internal.len() as u64,
            given.pointer(),
            told.pointer(),
            loader.pointer(),
        )
    };
    given.assert_holds(words_of(inputs));
    answer(number, told.written(), chosen(loader))
}
