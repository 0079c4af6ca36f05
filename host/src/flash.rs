//! The flash: its two operations, and what a driver of it has to do.

use crate::ffi;

/// An operation of the flash, as the plan calls of a [`Session`](crate::Session) hand it back.
#[derive(Clone, Copy, Debug, PartialEq, Eq, Hash)]
#[must_use = "the operation is to be made before the next call"]
pub enum Operation {
    /// There is nothing to do.
    Nothing,
    /// Erase the page of 4,096 bytes that starts here: each byte becomes 255.
    ErasePage {
        /// Where the page starts, in bytes from the slot's start.
        offset: usize,
    },
    /// Store the word of 4 bytes that starts here, over an erased one. The zero that the first erase
    /// of a session stores in the first word needs no erased one.
    StoreWord {
        /// Where the word starts, in bytes from the slot's start.
        offset: usize,
        /// Its bytes, in order.
        word: [u8; 4],
    },
}

impl Operation {
    /// The archive tells no kind but 0, 1 and 2.
    pub(crate) fn from_words(words: ffi::Operation) -> Operation {
        let offset = words.offset as usize;
        match words.kind {
            1 => Operation::ErasePage { offset },
            2 => Operation::StoreWord {
                offset,
                word: words.word.to_le_bytes(),
            },
            _ => Operation::Nothing,
        }
    }
}

/// A slot in flash: it is read in place, and a driver writes it. Each call may fail.
///
/// A store happens wholly or not at all, also if it fails or the power does. An erase that fails, or
/// that a power cut ends, leaves each word of its page as it was or erased. During an install nobody
/// else writes the slot.
pub trait Flash {
    /// Why a call failed.
    type Error;

    /// The bytes of the slot as they are now.
    ///
    /// # Errors
    ///
    /// The slot cannot be read.
    fn bytes(&self) -> Result<&[u8], Self::Error>;

    /// Erases the page of 4,096 bytes at this offset: each byte becomes 255.
    ///
    /// # Errors
    ///
    /// The page is not erased, or not all of it.
    fn erase_page(&mut self, offset: usize) -> Result<(), Self::Error>;

    /// Stores a word of 4 bytes at this offset, over an erased one, or zero over any.
    ///
    /// # Errors
    ///
    /// The word is not stored.
    fn store_word(&mut self, offset: usize, word: [u8; 4]) -> Result<(), Self::Error>;
}

impl<F: Flash + ?Sized> Flash for &mut F {
    type Error = F::Error;

    fn bytes(&self) -> Result<&[u8], F::Error> {
        (**self).bytes()
    }

    fn erase_page(&mut self, offset: usize) -> Result<(), F::Error> {
        (**self).erase_page(offset)
    }

    fn store_word(&mut self, offset: usize, word: [u8; 4]) -> Result<(), F::Error> {
        (**self).store_word(offset, word)
    }
}
