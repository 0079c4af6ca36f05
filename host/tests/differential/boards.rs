//! Installs by the wrapper's `Installer`, over a flash whose operations are always made, and whose
//! reads can go wrong.

use crate::common::random::Random;
use crate::driven::{assert_dropped, install, Case, SLOT};
use crate::wrapper::{alone, inputs};
use std::cell::Cell;
use thimmorel::simulated::SimulatedError;
use thimmorel::{Flash, InstallError, Installer, Progress};

struct Board {
    bytes: Vec<u8>,
    /// Reads so far, and the one that fails.
    reads: Cell<usize>,
    fails_at: Option<usize>,
    /// What is read from the second read on after the first word was stored.
    faded: Option<Vec<u8>>,
    reads_of_first_word: Cell<usize>,
}

impl Board {
    fn new() -> Board {
        Board {
            bytes: vec![255; SLOT],
            reads: Cell::new(0),
            fails_at: None,
            faded: None,
            reads_of_first_word: Cell::new(0),
        }
    }
}

fn count(cell: &Cell<usize>) -> usize {
    cell.set(cell.get() + 1);
    cell.get()
}

impl Flash for Board {
    type Error = SimulatedError;

    fn bytes(&self) -> Result<&[u8], SimulatedError> {
        if self.fails_at == Some(count(&self.reads)) {
            return Err(SimulatedError::Failed);
        }
        let is_stored = self.bytes[..4] != [255; 4] && self.bytes[..4] != [0; 4];
        match &self.faded {
            Some(faded) if is_stored && count(&self.reads_of_first_word) > 1 => Ok(faded),
            _ => Ok(&self.bytes),
        }
    }

    fn erase_page(&mut self, offset: usize) -> Result<(), SimulatedError> {
        self.bytes[offset..offset + 4_096].fill(255);
        Ok(())
    }

    fn store_word(&mut self, offset: usize, word: [u8; 4]) -> Result<(), SimulatedError> {
        self.bytes[offset..offset + 4].copy_from_slice(&word);
        Ok(())
    }
}

const NOTHING_DONE: Progress = Progress {
    pages_erased: 0,
    pages: 0,
    bytes_taken: 0,
    bytes: 0,
};

/// Done is the answer of confirm, over the slot as it is then read.
#[test]
fn a_first_word_that_fades() {
    let case = Case::new(&mut Random::new(905));
    let mut faded = case.file.clone();
    faded.resize(SLOT, 255);
    faded[3] ^= 1;
    let flash = Board {
        faded: Some(faded),
        ..Board::new()
    };
    let mut installer = Installer::begin(flash, case.file.len()).expect("good lengths");
    let answer = install(&mut installer, &case.file, inputs(&case.inputs));
    assert_eq!(answer, Err(InstallError::Refused(alone(27))));
    assert_dropped(&mut installer, inputs(&case.inputs));
    assert_eq!(installer.progress(), NOTHING_DONE);
}

/// One read of the flash fails, each in turn: before an operation, or when it is read back.
#[test]
fn a_read_that_fails() {
    let case = Case::new(&mut Random::new(906));
    let mut flash = Board::new();
    let mut installer = Installer::begin(&mut flash, case.file.len()).expect("good lengths");
    let answer = install(&mut installer, &case.file, inputs(&case.inputs));
    assert_eq!(answer, Ok(()));
    let reads = flash.reads.get();
    assert!(reads > 2 * case.last as usize);

    let failed = || InstallError::Flash(SimulatedError::Failed);
    let failing_at = |read| Board {
        fails_at: Some(read),
        ..Board::new()
    };
    let begun = Installer::begin(failing_at(1), case.file.len());
    assert_eq!(begun.err(), Some(failed()));
    for read in 2..=reads {
        let begun = Installer::begin(failing_at(read), case.file.len());
        let mut installer = begun.expect("good lengths");
        let answer = install(&mut installer, &case.file, inputs(&case.inputs));
        assert_eq!(answer, Err(failed()), "read {read}");
        assert_dropped(&mut installer, inputs(&case.inputs));
        assert_eq!(installer.progress(), NOTHING_DONE);
    }
}
