//! A flash in memory for tests. It keeps the rules of a flash, and fails or loses power where it is
//! told to, also in the midst of an erase.

use crate::flash::Flash;
use crate::{PAGE_SIZE, WORD_SIZE};
use core::error::Error;
use core::fmt;

/// A flash over bytes in memory. Its operations, pages erased and words stored, are counted from 1.
///
/// ```
/// use thimmorel::simulated::{SimulatedError, SimulatedFlash};
/// use thimmorel::{InstallError, Installer, Reason};
///
/// let mut slot = [0; 8192];
/// let flash = SimulatedFlash::new(&mut slot).fail_at(2);
/// let mut installer = Installer::begin(flash, 1540).unwrap();
/// assert_eq!(installer.erase(), Ok(()));
/// assert_eq!(installer.erase(), Err(InstallError::Flash(SimulatedError::Failed)));
///
/// // The session is dropped.
/// let Err(InstallError::Refused(refusal)) = installer.erase() else { panic!() };
/// assert_eq!(refusal.reason, Reason::Turn);
/// ```
pub struct SimulatedFlash<'a> {
    bytes: &'a mut [u8],
    operations: u32,
    fault: Fault<'a>,
    has_power: bool,
}

/// Which words an operation has reached when the power is lost in it.
type Choice<'a> = &'a (dyn Fn(usize) -> bool + Sync);

/// At which operation something goes wrong, and what.
#[derive(Clone, Copy)]
enum Fault<'a> {
    None,
    FailAt(u32),
    SkipAt(u32),
    CutBefore(u32),
    CutAfter(u32),
    CutInside(u32, Choice<'a>),
}

/// What an operation does.
enum Effect<'a> {
    All,
    Nothing,
    /// The power is lost in it. The choice says which words it reaches.
    Part(Choice<'a>),
}

/// Why a call of a [`SimulatedFlash`] failed.
#[derive(Clone, Copy, Debug, PartialEq, Eq)]
#[non_exhaustive]
pub enum SimulatedError {
    /// The operation failed, as it was told to.
    Failed,
    /// There is no power.
    PowerLost,
    /// A word other than zero was to be stored over one that is not erased.
    NotErased {
        /// Where the word starts.
        offset: usize,
    },
    /// There is no such page or word.
    NoSuchPlace {
        /// Where it would start.
        offset: usize,
    },
}

impl fmt::Display for SimulatedError {
    fn fmt(&self, f: &mut fmt::Formatter<'_>) -> fmt::Result {
        match self {
            SimulatedError::Failed => f.write_str("the operation failed"),
            SimulatedError::PowerLost => f.write_str("there is no power"),
            SimulatedError::NotErased { offset } => {
                write!(f, "the word at {offset} is not erased")
            }
            SimulatedError::NoSuchPlace { offset } => {
                write!(f, "no page or word starts at {offset}")
            }
        }
    }
}

impl Error for SimulatedError {}

impl<'a> SimulatedFlash<'a> {
    /// A flash that holds these bytes. Nothing goes wrong with it.
    pub fn new(bytes: &'a mut [u8]) -> SimulatedFlash<'a> {
        SimulatedFlash {
            bytes,
            operations: 0,
            fault: Fault::None,
            has_power: true,
        }
    }

    /// This operation will fail and change nothing. One fault is kept: the last that was told.
    #[must_use]
    pub fn fail_at(self, operation: u32) -> SimulatedFlash<'a> {
        self.with(Fault::FailAt(operation))
    }

    /// This operation will change nothing, and not fail.
    #[must_use]
    pub fn skip_at(self, operation: u32) -> SimulatedFlash<'a> {
        self.with(Fault::SkipAt(operation))
    }

    /// The power will be lost before this operation. Without power every call fails.
    #[must_use]
    pub fn cut_before(self, operation: u32) -> SimulatedFlash<'a> {
        self.with(Fault::CutBefore(operation))
    }

    /// The power will be lost after this operation, which is made.
    #[must_use]
    pub fn cut_after(self, operation: u32) -> SimulatedFlash<'a> {
        self.with(Fault::CutAfter(operation))
    }

    /// The power will be lost inside this operation. Of an erase it leaves those words of the page
    /// erased that the choice names, counted from 0, and the others as they were. A store is made
    /// if the choice names word 0.
    #[must_use]
    pub fn cut_inside(
        self,
        operation: u32,
        choice: &'a (dyn Fn(usize) -> bool + Sync),
    ) -> SimulatedFlash<'a> {
        self.with(Fault::CutInside(operation, choice))
    }

    fn with(self, fault: Fault<'a>) -> SimulatedFlash<'a> {
        SimulatedFlash { fault, ..self }
    }

    /// How many operations were asked for while there was power.
    pub fn operations(&self) -> u32 {
        self.operations
    }

    /// Counts an operation, and tells what it is to do.
    fn start(&mut self) -> Result<Effect<'a>, SimulatedError> {
        if !self.has_power {
            return Err(SimulatedError::PowerLost);
        }
        self.operations += 1;
        match self.fault {
            Fault::FailAt(at) if at == self.operations => Err(SimulatedError::Failed),
            Fault::SkipAt(at) if at == self.operations => Ok(Effect::Nothing),
            Fault::CutBefore(at) if at == self.operations => {
                self.has_power = false;
                Err(SimulatedError::PowerLost)
            }
            Fault::CutAfter(at) if at == self.operations => {
                self.has_power = false;
                Ok(Effect::All)
            }
            Fault::CutInside(at, choice) if at == self.operations => {
                self.has_power = false;
                Ok(Effect::Part(choice))
            }
            _ => Ok(Effect::All),
        }
    }

    /// The page or the word of this size at this offset.
    fn place(&mut self, offset: usize, size: usize) -> Result<&mut [u8], SimulatedError> {
        let rest = match offset % size {
            0 => self.bytes.get_mut(offset..),
            _ => None,
        };
        rest.and_then(|rest| rest.get_mut(..size))
            .ok_or(SimulatedError::NoSuchPlace { offset })
    }
}

impl Flash for SimulatedFlash<'_> {
    type Error = SimulatedError;

    fn bytes(&self) -> Result<&[u8], SimulatedError> {
        match self.has_power {
            true => Ok(self.bytes),
            false => Err(SimulatedError::PowerLost),
        }
    }

    fn erase_page(&mut self, offset: usize) -> Result<(), SimulatedError> {
        let effect = self.start()?;
        let page = self.place(offset, PAGE_SIZE)?;
        match effect {
            Effect::All => page.fill(255),
            Effect::Nothing => (),
            Effect::Part(choice) => {
                let words = page.chunks_mut(WORD_SIZE).enumerate();
                for (_, word) in words.filter(|(i, _)| choice(*i)) {
                    word.fill(255);
                }
                return Err(SimulatedError::PowerLost);
            }
        }
        Ok(())
    }

    fn store_word(&mut self, offset: usize, word: [u8; 4]) -> Result<(), SimulatedError> {
        let effect = self.start()?;
        let place = self.place(offset, WORD_SIZE)?;
        if word != [0; WORD_SIZE] && *place != [255; WORD_SIZE] {
            return Err(SimulatedError::NotErased { offset });
        }
        match effect {
            Effect::All => place.copy_from_slice(&word),
            Effect::Nothing => (),
            Effect::Part(choice) => {
                if choice(0) {
                    place.copy_from_slice(&word);
                }
                return Err(SimulatedError::PowerLost);
            }
        }
        Ok(())
    }
}

impl fmt::Debug for SimulatedFlash<'_> {
    fn fmt(&self, f: &mut fmt::Formatter<'_>) -> fmt::Result {
        f.debug_struct("SimulatedFlash")
            .field("length", &self.bytes.len())
            .field("operations", &self.operations)
            .field("has_power", &self.has_power)
            .finish_non_exhaustive()
    }
}
