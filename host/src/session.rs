//! The install call by call: one session that puts a file into the slot. Here are the calls that
//! write a slot in memory; plans.rs has those that hand the operation back.

use crate::check::Inputs;
use crate::ffi;
use crate::refusal::Refusal;
use crate::signing::Signature;
use crate::PAGE_SIZE;
use core::fmt;

/// An install in progress. The slot is lent to each call anew and must be the same each time.
///
/// The first erase stores zero in the slot's first word, and that of the file stays in the session
/// until it is stored, as the last operation of all. From the first erase until then,
/// [`check_slot`](crate::check_slot) refuses the slot with 1, also after a power cut in the midst of
/// an erase. Done means that the slot holds the file, and that the bytes after it are erased. After
/// a power cut, begin again.
///
/// [`erase`](Session::erase), [`fill`](Session::fill) and [`close`](Session::close) write a slot in
/// memory. [`plan_erase`](Session::plan_erase), [`plan_fill`](Session::plan_fill) and
/// [`plan_close`](Session::plan_close) only read the slot, and hand back the operation that a
/// driver has to make; [`Installer`](crate::Installer) makes them over a driver.
///
/// Every call refuses with [`Turn`](crate::Reason::Turn) where the session is over, or the slot's
/// length is not that at begin.
///
/// ```
/// use thimmorel::{check_slot, write_firmware, write_vendor, Session};
/// use thimmorel::{FirmwareHeader, Inputs, Reason, VendorHeader};
///
/// let keys = [[7; 32]];
/// let vendor = VendorHeader { m: 1, keys: &keys, sigmask: 1, ..VendorHeader::default() };
/// let firmware = FirmwareHeader { vendor_length: 512, sigmask: 1, ..FirmwareHeader::default() };
/// let mut file = [0; 1540];
/// write_vendor(&vendor, &mut file)?;
/// write_firmware(&firmware, b"code", &mut file[512..])?;
/// file[1536..].copy_from_slice(b"code");
///
/// let mut slot = [0; 8192];
/// let mut session = Session::begin(&slot, file.len())?;
/// while session.progress().pages_erased < session.progress().pages {
///     session.erase(&mut slot)?;
/// }
/// let mut given = 0;
/// while given < file.len() {
///     given += session.fill(&file[given..], &mut slot)?;
/// }
///
/// // The chip's verdicts on these two digests are two of the inputs.
/// let digests = session.ask(&slot)?;
/// assert!(digests.vendor.is_ok() && digests.firmware.is_ok());
/// assert_eq!(session.signatures(&slot).firmware.unwrap().keys, keys);
/// let inputs = Inputs { time: 0, m: 1, n: 1, vendor_verdict: true, firmware_verdict: true };
///
/// assert_eq!(check_slot(&slot, inputs).unwrap_err().reason, Reason::VendorMagic);
/// session.close(&mut slot, inputs)?;
/// assert_eq!(check_slot(&slot, inputs)?.code, b"code");
/// assert_eq!(session.operations(), 2 + 1540 / 4 + 1);
/// # Ok::<(), thimmorel::Refusal>(())
/// ```
#[derive(Clone, PartialEq, Eq)]
pub struct Session {
    pub(crate) record: ffi::Record,
}

/// The digests that the signatures of a new file sign, or why there is none.
#[derive(Clone, Copy, Debug, PartialEq, Eq)]
pub struct Digests {
    /// As [`vendor_digest`](crate::vendor_digest) answers for the file.
    pub vendor: Result<[u8; 32], Refusal>,
    /// As [`firmware_digest`](crate::firmware_digest) answers for the file.
    pub firmware: Result<[u8; 32], Refusal>,
}

/// What the chip needs for the signatures of a new file, beside the digests.
#[derive(Clone, Copy, Debug, PartialEq, Eq)]
pub struct Signatures<'a> {
    /// As [`vendor_signature`](crate::vendor_signature) tells for the file.
    pub vendor: Option<Signature<'a>>,
    /// As [`firmware_signature`](crate::firmware_signature) tells for the file.
    pub firmware: Option<Signature<'a>>,
}

/// How far an install is. The last byte taken is not Done.
#[derive(Clone, Copy, Debug, PartialEq, Eq)]
pub struct Progress {
    /// Pages erased.
    pub pages_erased: usize,
    /// The pages of the slot.
    pub pages: usize,
    /// Bytes of the file taken.
    pub bytes_taken: usize,
    /// The bytes of the file.
    pub bytes: usize,
}

impl Session {
    /// Begins to install a file of this length. The slot is not changed.
    ///
    /// # Errors
    ///
    /// In this order: [`SlotLength`](crate::Reason::SlotLength) if the slot's length is not a
    /// multiple of 4,096 from 4,096 to 2,097,152; [`FileLength`](crate::Reason::FileLength) if the
    /// file's length is not a multiple of 4, is under 1,540, or is above the slot's length.
    pub fn begin(slot: &[u8], file_length: usize) -> Result<Session, Refusal> {
        let mut session = Session::over();
        // SAFETY: the pointer and the length are those of one slice, and the record is a local, so
        // they do not overlap.
        let number = unsafe {
            ffi::thimmorel_begin(
                slot.as_ptr(),
                slot.len() as u64,
                file_length as u64,
                &mut session.record,
            )
        };
        Refusal::unless_zero(number)?;
        Ok(session)
    }

    /// A session that is over: every call refuses.
    pub(crate) fn over() -> Session {
        Session {
            record: ffi::Record::default(),
        }
    }

    /// Whether the session is over: Done, refused by the check, or dropped.
    pub fn is_over(&self) -> bool {
        self.record.phase == 0
    }

    /// Stores zero in the slot's first word the first time, whatever stands there, and erases the
    /// next page from then on, from the first up. So it takes one call more than the slot has pages.
    ///
    /// # Errors
    ///
    /// [`Turn`](crate::Reason::Turn), also once all pages are erased.
    pub fn erase(&mut self, slot: &mut [u8]) -> Result<(), Refusal> {
        // SAFETY: the pointer and the length are those of one slice. The slot and the record are
        // borrowed mutably, so they do not overlap.
        let number =
            unsafe { ffi::thimmorel_erase(&mut self.record, slot.as_mut_ptr(), slot.len() as u64) };
        Refusal::unless_zero(number)
    }

    /// Gives the next bytes of the file, and tells how many of the piece were taken: 0 to 4. Call
    /// again with the rest.
    ///
    /// # Errors
    ///
    /// In this order: [`Turn`](crate::Reason::Turn), also while pages are still to be erased;
    /// [`NotErased`](crate::Reason::NotErased) if a word would be stored over one that is not
    /// erased.
    pub fn fill(&mut self, piece: &[u8], slot: &mut [u8]) -> Result<usize, Refusal> {
        let mut taken = 0;
        // SAFETY: each pointer and length are those of one slice. The slot and the record are
        // borrowed mutably and the number is a local, so they overlap nothing.
        let number = unsafe {
            ffi::thimmorel_fill(
                &mut self.record,
                piece.as_ptr(),
                piece.len() as u64,
                slot.as_mut_ptr(),
                slot.len() as u64,
                &mut taken,
            )
        };
        Refusal::unless_zero(number)?;
        Ok(taken as usize)
    }

    /// The digests that the signatures of the new file sign.
    ///
    /// # Errors
    ///
    /// [`Turn`](crate::Reason::Turn), also until all bytes are taken.
    pub fn ask(&self, slot: &[u8]) -> Result<Digests, Refusal> {
        let mut answers = ffi::Answers::default();
        let mut digests = ffi::Digests::default();
        // SAFETY: the pointer and the length are those of one slice, and the structs that are
        // written are locals, so they overlap nothing.
        let number = unsafe {
            ffi::thimmorel_ask(
                &self.record,
                slot.as_ptr(),
                slot.len() as u64,
                &mut answers,
                &mut digests,
            )
        };
        Refusal::unless_zero(number)?;
        let told = |answer: ffi::Answer, digest| {
            Refusal::unless_zero_at(answer.number, answer).map(|()| digest)
        };
        Ok(Digests {
            vendor: told(answers.vendor, digests.vendor),
            firmware: told(answers.firmware, digests.firmware),
        })
    }

    /// What the chip needs beside the digests. There is none for a header whose digest is refused,
    /// and none at all where [`ask`](Session::ask) refuses.
    pub fn signatures<'a>(&self, slot: &'a [u8]) -> Signatures<'a> {
        let mut found = ffi::Signatures::default();
        // SAFETY: the pointer and the length are those of one slice, and the struct that is written
        // is a local, so they overlap nothing.
        unsafe {
            ffi::thimmorel_find_signatures(
                &self.record,
                slot.as_ptr(),
                slot.len() as u64,
                &mut found,
            );
        }
        Signatures {
            vendor: Signature::at(slot, &found.vendor),
            firmware: Signature::at(slot, &found.firmware),
        }
    }

    /// Checks the new file as [`check_file`](crate::check_file) does and, if it is accepted, stores
    /// its first word. `Ok` is Done.
    ///
    /// # Errors
    ///
    /// In this order: [`Turn`](crate::Reason::Turn), also until all bytes are taken;
    /// [`NotErased`](crate::Reason::NotErased) if the slot's first word is not erased; those of the
    /// check, which end the session.
    pub fn close(&mut self, slot: &mut [u8], inputs: Inputs) -> Result<(), Refusal> {
        let mut answer = ffi::Answer::default();
        // SAFETY: the pointer and the length are those of one slice. The slot and the record are
        // borrowed mutably and the structs are locals, so they do not overlap.
        let number = unsafe {
            ffi::thimmorel_close(
                &mut self.record,
                slot.as_mut_ptr(),
                slot.len() as u64,
                &inputs.words(),
                &mut answer,
            )
        };
        Refusal::unless_zero_at(number, answer)
    }

    /// How far the install is.
    pub fn progress(&self) -> Progress {
        Progress {
            pages_erased: self.record.pages_erased as usize,
            pages: self.record.slot_length as usize / PAGE_SIZE,
            bytes_taken: self.record.bytes_taken as usize,
            bytes: self.record.file_length as usize,
        }
    }

    /// How many pages were erased and words stored since begin.
    pub fn operations(&self) -> u32 {
        self.record.operations
    }

    /// The words of the record, to be stored. Each keeps its place in later versions. A record of
    /// another version may be refused with [`Turn`](crate::Reason::Turn); begin again then.
    pub fn words(&self) -> [u32; 16] {
        let record = &self.record;
        let mut words = [0; 16];
        let (numbers, reserved) = words.split_at_mut(8);
        numbers.copy_from_slice(&[
            record.phase,
            record.slot_length,
            record.file_length,
            record.pages_erased,
            record.bytes_taken,
            record.operations,
            record.first_word,
            record.current_word,
        ]);
        reserved.copy_from_slice(&record.reserved);
        words
    }

    /// A session from stored words. An inconsistent record gets
    /// [`Turn`](crate::Reason::Turn) from every call.
    pub fn from_words(words: [u32; 16]) -> Session {
        Session {
            record: ffi::Record {
                phase: words[0],
                slot_length: words[1],
                file_length: words[2],
                pages_erased: words[3],
                bytes_taken: words[4],
                operations: words[5],
                first_word: words[6],
                current_word: words[7],
                reserved: core::array::from_fn(|i| words[8 + i]),
            },
        }
    }
}

impl fmt::Debug for Session {
    fn fmt(&self, f: &mut fmt::Formatter<'_>) -> fmt::Result {
        f.debug_struct("Session")
            .field("phase", &self.record.phase)
            .field("progress", &self.progress())
            .field("operations", &self.record.operations)
            .finish_non_exhaustive()
    }
}
