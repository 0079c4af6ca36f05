//! The install over a flash that can fail: each operation is planned, made and read back.

use crate::check::Inputs;
use crate::flash::{Flash, Operation};
use crate::refusal::{Reason, Refusal};
use crate::session::{Digests, Progress, Session, Signatures};
use crate::{PAGE_SIZE, WORD_SIZE};
use core::error::Error;
use core::fmt;

/// An install into a slot that a driver writes.
///
/// Each call plans one operation at most, lets the flash make it, and reads it back. If the flash
/// fails, or does not hold what was written, the session is dropped: every later call refuses with
/// [`Turn`](crate::Reason::Turn). Begin again then.
///
/// ```
/// use thimmorel::simulated::SimulatedFlash;
/// use thimmorel::{check_slot, write_firmware, write_vendor, Installer};
/// use thimmorel::{FirmwareHeader, Inputs, VendorHeader};
///
/// let keys = [[7; 32]];
/// let vendor = VendorHeader { m: 1, keys: &keys, sigmask: 1, ..VendorHeader::default() };
/// let firmware = FirmwareHeader { vendor_length: 512, sigmask: 1, ..FirmwareHeader::default() };
/// let mut file = [0; 1540];
/// write_vendor(&vendor, &mut file)?;
/// write_firmware(&firmware, b"code", &mut file[512..])?;
/// file[1536..].copy_from_slice(b"code");
///
/// let mut slot = [0; 8192];
/// let mut installer = Installer::begin(SimulatedFlash::new(&mut slot), file.len())?;
/// installer.erase_all()?;
/// for piece in file.chunks(64) {
///     installer.fill_all(piece)?;
/// }
///
/// // The chip verifies the signatures on these digests.
/// let digests = installer.ask()?;
/// assert!(digests.vendor.is_ok() && digests.firmware.is_ok());
/// let signatures = installer.signatures()?;
/// assert_eq!(signatures.vendor.unwrap().sigmask, 1);
///
/// let inputs = Inputs { time: 0, m: 1, n: 1, vendor_verdict: true, firmware_verdict: true };
/// installer.close(inputs)?; // Ok is Done
/// assert!(check_slot(&slot, inputs).is_ok());
/// # Ok::<(), Box<dyn std::error::Error>>(())
/// ```
pub struct Installer<F: Flash> {
    flash: F,
    session: Session,
}

/// Why a call of an [`Installer`] did not do what it should.
#[derive(Clone, Copy, Debug, PartialEq, Eq)]
#[non_exhaustive]
pub enum InstallError<E> {
    /// The call was refused, and nothing was written.
    Refused(Refusal),
    /// The flash failed.
    Flash(E),
    /// The flash did not fail, and yet it does not hold what was written.
    NotLanded {
        /// Where the page or the word starts, in bytes from the slot's start.
        offset: usize,
    },
}

impl<E> From<Refusal> for InstallError<E> {
    fn from(refusal: Refusal) -> Self {
        InstallError::Refused(refusal)
    }
}

impl<E: fmt::Display> fmt::Display for InstallError<E> {
    fn fmt(&self, f: &mut fmt::Formatter<'_>) -> fmt::Result {
        match self {
            InstallError::Refused(refusal) => refusal.fmt(f),
            InstallError::Flash(error) => write!(f, "the flash failed: {error}"),
            InstallError::NotLanded { offset } => {
                write!(f, "the flash does not hold what was written at {offset}")
            }
        }
    }
}

impl<E: Error> Error for InstallError<E> {}

impl<F: Flash> Installer<F> {
    /// Begins to install a file of this length. The flash is not written. It may be lent as `&mut`,
    /// so that it is not lost if begin fails.
    ///
    /// # Errors
    ///
    /// The flash cannot be read, or a refusal of [`Session::begin`].
    pub fn begin(flash: F, file_length: usize) -> Result<Self, InstallError<F::Error>> {
        let slot = flash.bytes().map_err(InstallError::Flash)?;
        let session = Session::begin(slot, file_length)?;
        Ok(Installer { flash, session })
    }

    /// Stores zero in the slot's first word the first time, and erases the next page from then on,
    /// from the first up.
    ///
    /// # Errors
    ///
    /// The flash fails, or a refusal of [`Session::plan_erase`].
    pub fn erase(&mut self) -> Result<(), InstallError<F::Error>> {
        let (session, slot) = self.parts()?;
        let operation = session.plan_erase(slot)?;
        self.make(operation)
    }

    /// Erases all pages that are still to be erased, after the zero in the first word.
    ///
    /// # Errors
    ///
    /// As [`erase`](Installer::erase); so also if all pages are erased already.
    pub fn erase_all(&mut self) -> Result<(), InstallError<F::Error>> {
        loop {
            self.erase()?;
            let progress = self.progress();
            if progress.pages_erased == progress.pages {
                return Ok(());
            }
        }
    }

    /// Gives the next bytes of the file, and tells how many of the piece were taken: 0 to 4. Call
    /// again with the rest.
    ///
    /// # Errors
    ///
    /// The flash fails, or a refusal of [`Session::plan_fill`].
    pub fn fill(&mut self, piece: &[u8]) -> Result<usize, InstallError<F::Error>> {
        let (session, slot) = self.parts()?;
        let (taken, operation) = session.plan_fill(piece, slot)?;
        self.make(operation)?;
        Ok(taken)
    }

    /// Gives the next bytes of the file until the piece ends or the file is complete, and tells how
    /// many of the piece were taken.
    ///
    /// # Errors
    ///
    /// As [`fill`](Installer::fill).
    pub fn fill_all(&mut self, piece: &[u8]) -> Result<usize, InstallError<F::Error>> {
        let mut rest = piece;
        loop {
            let taken = self.fill(rest)?;
            rest = rest.get(taken..).unwrap_or_default();
            if taken == 0 || rest.is_empty() {
                return Ok(piece.len() - rest.len());
            }
        }
    }

    /// The digests that the signatures of the new file sign.
    ///
    /// # Errors
    ///
    /// The flash cannot be read, or a refusal of [`Session::ask`].
    pub fn ask(&mut self) -> Result<Digests, InstallError<F::Error>> {
        let (session, slot) = self.parts()?;
        Ok(session.ask(slot)?)
    }

    /// What the chip needs beside the digests. There is none for a header whose digest is refused.
    ///
    /// # Errors
    ///
    /// As [`ask`](Installer::ask).
    pub fn signatures(&mut self) -> Result<Signatures<'_>, InstallError<F::Error>> {
        let (session, slot) = self.parts()?;
        session.ask(slot)?;
        Ok(session.signatures(slot))
    }

    /// Checks the new file as [`check_file`](crate::check_file) does and, if it is accepted, stores
    /// its first word and reads it back. `Ok` is Done.
    ///
    /// # Errors
    ///
    /// The flash fails, or a refusal of [`Session::plan_close`] or [`Session::confirm`].
    pub fn close(&mut self, inputs: Inputs) -> Result<(), InstallError<F::Error>> {
        let (session, slot) = self.parts()?;
        let operation = session.plan_close(slot, inputs)?;
        self.make(operation)?;
        let (session, slot) = self.parts()?;
        let confirmed = session.confirm(slot);
        if confirmed.is_err() {
            self.session = Session::over();
        }
        Ok(confirmed?)
    }

    /// How far the install is. All numbers are 0 once the session is dropped.
    pub fn progress(&self) -> Progress {
        self.session.progress()
    }

    /// The flash.
    pub fn flash(&self) -> &F {
        &self.flash
    }

    /// Ends the session, and gives the flash back.
    pub fn into_flash(self) -> F {
        self.flash
    }

    /// The session, and the slot as it is read. The session is dropped if it cannot be. Once it is
    /// over, the flash is not touched.
    fn parts(&mut self) -> Result<(&mut Session, &[u8]), InstallError<F::Error>> {
        if self.session.is_over() {
            return Err(Refusal::of(Reason::Turn).into());
        }
        match self.flash.bytes() {
            Ok(slot) => Ok((&mut self.session, slot)),
            Err(error) => {
                self.session = Session::over();
                Err(InstallError::Flash(error))
            }
        }
    }

    /// Makes an operation and reads it back. The session is dropped if it fails.
    fn make(&mut self, operation: Operation) -> Result<(), InstallError<F::Error>> {
        let made = make(&mut self.flash, operation);
        if made.is_err() {
            self.session = Session::over();
        }
        made
    }
}

/// Makes an operation, and reads back what it wrote.
fn make<F: Flash>(flash: &mut F, operation: Operation) -> Result<(), InstallError<F::Error>> {
    match operation {
        Operation::Nothing => Ok(()),
        Operation::ErasePage { offset } => {
            flash.erase_page(offset).map_err(InstallError::Flash)?;
            let page = read_back(flash, offset, PAGE_SIZE)?;
            landed(page.iter().all(|byte| *byte == 255), offset)
        }
        Operation::StoreWord { offset, word } => {
            flash
                .store_word(offset, word)
                .map_err(InstallError::Flash)?;
            landed(read_back(flash, offset, WORD_SIZE)? == word, offset)
        }
    }
}

fn read_back<F: Flash>(
    flash: &F,
    offset: usize,
    length: usize,
) -> Result<&[u8], InstallError<F::Error>> {
    let slot = flash.bytes().map_err(InstallError::Flash)?;
    let bytes = slot.get(offset..).and_then(|rest| rest.get(..length));
    bytes.ok_or(InstallError::NotLanded { offset })
}

fn landed<E>(holds: bool, offset: usize) -> Result<(), InstallError<E>> {
    match holds {
        true => Ok(()),
        false => Err(InstallError::NotLanded { offset }),
    }
}

impl<F: Flash> fmt::Debug for Installer<F> {
    fn fmt(&self, f: &mut fmt::Formatter<'_>) -> fmt::Result {
        f.debug_struct("Installer")
            .field("session", &self.session)
            .finish_non_exhaustive()
    }
}
