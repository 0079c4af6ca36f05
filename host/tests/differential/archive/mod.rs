//! The archive's calls, told in the model's types. Each struct and array of fixed size stands
//! between guards, as words of any value. An output that a refusal must leave alone is asserted to
//! be as it was, and so is a struct that is only read.

pub mod image;
pub mod installer;
pub mod loader;
pub mod older;
pub mod writer;

use crate::model::image::{Inputs, Refusal};
use std::fmt::Debug;

/// What outputs and guards hold before a call. Each byte differs from its neighbours in a word, so
/// that a shifted word is seen.
const BYTE: u8 = 0xa5;
const WORD: u32 = 0xa5b6_c7d8;
const LONG: u64 = 0xa5b6_c7d8_e9fa_0b1c;

/// A struct or an array as words, with as many guards before it and after it.
struct Guarded<T, const N: usize> {
    guard: T,
    cells: [[T; N]; 3],
}

impl<T: Copy + Debug + PartialEq, const N: usize> Guarded<T, N> {
    fn new(guard: T) -> Self {
        Guarded::holding([guard; N], guard)
    }

    fn holding(words: [T; N], guard: T) -> Self {
        let cells = [[guard; N], words, [guard; N]];
        Guarded { guard, cells }
    }

    /// The words in the middle, as the struct `S`. The pointer is that of all three, so that a
    /// write beyond the middle is seen.
    fn pointer<S>(&mut self) -> *mut S {
        const { assert!(size_of::<S>() == size_of::<[T; N]>()) };
        const { assert!(align_of::<S>() <= align_of::<T>()) };
        self.cells.as_mut_ptr().wrapping_add(1).cast()
    }

    /// The words after a call that may write them.
    fn written(self) -> [T; N] {
        let [before, words, after] = self.cells;
        assert_eq!(before, [self.guard; N], "written before an output");
        assert_eq!(after, [self.guard; N], "written after an output");
        words
    }

    /// The words after a call that writes them on success alone.
    fn written_if(self, success: bool) -> Option<[T; N]> {
        let guard = self.guard;
        let words = self.written();
        if success {
            return Some(words);
        }
        assert_eq!(words, [guard; N], "a refused call wrote an output");
        None
    }

    /// Asserts that a call that only reads the words left them.
    fn assert_holds(self, words: [T; N]) {
        assert_eq!(self.written(), words, "a call wrote what it may only read");
    }
}

/// The words of `struct thimmorel_inputs`.
fn words_of(inputs: &Inputs) -> [u32; 5] {
    let Inputs {
        time,
        m,
        n,
        vendor,
        firmware,
    } = *inputs;
    [time, m, n, vendor, firmware]
}

/// What a call answered that returned a number and told an answer. Without a value it was refused.
fn answer<T>(returned: u32, told: [u32; 3], value: Option<T>) -> Result<T, Refusal> {
    let [number, part, chunk] = told;
    assert_eq!(returned, number, "the number that is told");
    match value {
        Some(value) => {
            assert_eq!(told, [0; 3], "the answer at success");
            Ok(value)
        }
        None => Err(Refusal {
            number,
            part,
            chunk,
        }),
    }
}
