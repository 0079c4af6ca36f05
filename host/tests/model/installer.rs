//! The session record and the installer's calls (specification, 9 and 10). The calls that hand
//! their operation back are modelled (10.5), and those that make it are these and the operation
//! made.

use super::image::{
    check, firmware_digest, firmware_signature, vendor_digest, vendor_signature, Form, Inputs,
    Refusal, Signature,
};

const PAGE: usize = 4_096;
const WORD: usize = 4;
const ERASED: [u8; WORD] = [255; WORD];
const ZERO: [u8; WORD] = [0; WORD];

/// The numbers that the calls give.
const FILE_LENGTH: u32 = 18;
const TURN: u32 = 19;
const SLOT_LENGTH: u32 = 22;
const NOT_ERASED: u32 = 23;
const NOT_LANDED: u32 = 27;

const OVER: u32 = 0;
const OPEN: u32 = 1;
const ACCEPTED: u32 = 2;

/// A session. Any other number than these three is no phase.
#[derive(Clone, Debug, PartialEq, Eq)]
pub struct Record {
    pub phase: u32,
    pub slot_length: usize,
    pub file_length: usize,
    pub pages_erased: usize,
    pub bytes_taken: usize,
    pub operations: usize,
    /// Word 0 of the file, kept here until it is stored. It counts once four bytes are taken.
    pub first: [u8; WORD],
    /// The word in progress: its first bytes, as many as `bytes_taken` has beyond full words.
    pub word: [u8; WORD],
}

/// Session over, its numbers all 0: what a refused begin gives.
const FINISHED: Record = Record {
    phase: OVER,
    slot_length: 0,
    file_length: 0,
    pages_erased: 0,
    bytes_taken: 0,
    operations: 0,
    first: [0; WORD],
    word: [0; WORD],
};

/// An operation of the flash, with the offset of its page or word.
#[derive(Clone, Copy, Debug, PartialEq, Eq)]
pub enum Operation {
    Nothing,
    ErasePage(usize),
    StoreWord(usize, [u8; WORD]),
}

impl Operation {
    pub fn make(self, slot: &mut [u8]) {
        match self {
            Operation::Nothing => (),
            Operation::ErasePage(at) => slot[at..at + PAGE].fill(255),
            Operation::StoreWord(at, word) => {
                let may_store = word == ZERO || is_erased(slot, at);
                assert!(may_store, "a store over a written word");
                slot[at..at + WORD].copy_from_slice(&word);
            }
        }
    }

    /// Makes the operation, and the power is cut in it. Of an erase each word of the page is erased
    /// or stays, as `chooses` says of each in turn; a store is made or not.
    pub fn interrupt(self, slot: &mut [u8], chooses: &mut dyn FnMut() -> bool) {
        match self {
            Operation::ErasePage(at) => {
                let words = slot[at..at + PAGE].chunks_mut(WORD);
                words.filter(|_| chooses()).for_each(|word| word.fill(255));
            }
            _ if chooses() => self.make(slot),
            _ => (),
        }
    }
}

fn slot_length_is_wrong(length: usize) -> bool {
    length % PAGE != 0 || !(PAGE..=2_097_152).contains(&length)
}

fn file_length_is_wrong(length: usize, slot_length: usize) -> bool {
    length % WORD != 0 || length < 1_540 || length > slot_length
}

/// Begin: its refusal, or none, and the record.
pub fn begin(slot_length: usize, file_length: usize) -> (Option<u32>, Record) {
    if slot_length_is_wrong(slot_length) {
        return (Some(SLOT_LENGTH), FINISHED);
    }
    if file_length_is_wrong(file_length, slot_length) {
        return (Some(FILE_LENGTH), FINISHED);
    }
    let record = Record {
        phase: OPEN,
        slot_length,
        file_length,
        ..FINISHED
    };
    (None, record)
}

fn refuse_unless(holds: bool, number: u32) -> Result<(), u32> {
    match holds {
        true => Ok(()),
        false => Err(number),
    }
}

fn is_erased(slot: &[u8], at: usize) -> bool {
    slot[at..at + WORD] == ERASED
}

impl Record {
    fn pages(&self) -> usize {
        self.slot_length / PAGE
    }

    /// Words stored so far: all that are complete, and word 0 only once the file is accepted.
    fn words_stored(&self) -> usize {
        let complete = self.bytes_taken / WORD;
        match self.phase {
            ACCEPTED => complete,
            _ => complete.saturating_sub(1),
        }
    }

    fn all_erased(&self) -> bool {
        self.pages_erased == self.pages()
    }

    fn full(&self) -> bool {
        self.all_erased() && self.bytes_taken == self.file_length
    }

    /// Whether the operations are the zero in word 0, the pages erased and the words stored; or
    /// none was made.
    fn counts(&self) -> bool {
        let is_untouched = self.operations == 0 && self.pages_erased == 0;
        is_untouched || self.operations == 1 + self.pages_erased + self.words_stored()
    }

    /// Whether its numbers agree (10.2).
    fn is_consistent(&self) -> bool {
        !slot_length_is_wrong(self.slot_length)
            && !file_length_is_wrong(self.file_length, self.slot_length)
            && self.pages_erased <= self.pages()
            && (self.bytes_taken == 0 || self.all_erased())
            && self.bytes_taken <= self.file_length
            && self.counts()
            && (self.full() || self.phase != ACCEPTED)
    }

    /// 19, unless the session is in this phase, the slot is as long as at begin, the record is
    /// consistent and `is_ready` says that it is the call's turn.
    fn expect(&self, phase: u32, slot: &[u8], is_ready: fn(&Record) -> bool) -> Result<(), u32> {
        let good = self.phase == phase
            && slot.len() == self.slot_length
            && self.is_consistent()
            && is_ready(self);
        refuse_unless(good, TURN)
    }

    /// The file as Ask and Close see it: word 0 from the record, the rest from the slot.
    fn file(&self, slot: &[u8]) -> Vec<u8> {
        let mut file = slot[..self.file_length].to_vec();
        file[..WORD].copy_from_slice(&self.first);
        file
    }
}

/// Erase: first zero in word 0, then the next page, from page 0 up.
pub fn plan_erase(record: &mut Record, slot: &[u8]) -> Result<Operation, u32> {
    record.expect(OPEN, slot, |record| !record.all_erased())?;
    let is_first = record.operations == 0;
    record.operations += 1;
    if is_first {
        return Ok(Operation::StoreWord(0, ZERO));
    }
    record.pages_erased += 1;
    Ok(Operation::ErasePage((record.pages_erased - 1) * PAGE))
}

pub fn erase(record: &mut Record, slot: &mut [u8]) -> Result<(), u32> {
    plan_erase(record, slot)?.make(slot);
    Ok(())
}

/// Fill: how many bytes of the piece were taken, and the operation.
pub fn plan_fill(
    record: &mut Record,
    piece: &[u8],
    slot: &[u8],
) -> Result<(usize, Operation), u32> {
    record.expect(OPEN, slot, Record::all_erased)?;
    let held = record.bytes_taken % WORD;
    let missing = record.file_length - record.bytes_taken;
    let taken = piece.len().min(WORD - held).min(missing);

    let mut word = record.word;
    word[held..held + taken].copy_from_slice(&piece[..taken]);
    let at = record.bytes_taken - held;
    let completed = taken != 0 && held + taken == WORD;
    let mut operation = Operation::Nothing;
    if completed && at == 0 {
        record.first = word;
    } else if completed {
        refuse_unless(is_erased(slot, at), NOT_ERASED)?;
        operation = Operation::StoreWord(at, word);
        record.operations += 1;
    }
    record.word = word;
    record.bytes_taken += taken;
    Ok((taken, operation))
}

pub fn fill(record: &mut Record, piece: &[u8], slot: &mut [u8]) -> Result<usize, u32> {
    let (taken, operation) = plan_fill(record, piece, slot)?;
    operation.make(slot);
    Ok(taken)
}

/// What Ask tells: the answers to both digest questions over the full file.
#[derive(Clone, Debug, PartialEq, Eq)]
pub struct Asked {
    pub vendor: Result<[u8; 32], Refusal>,
    pub firmware: Result<[u8; 32], Refusal>,
}

pub fn ask(record: &Record, slot: &[u8]) -> Result<Asked, u32> {
    record.expect(OPEN, slot, Record::full)?;
    let file = record.file(slot);
    Ok(Asked {
        vendor: vendor_digest(&file),
        firmware: firmware_digest(&file),
    })
}

/// What a chip needs for each header of the file that Ask asks about: nothing where Ask is refused.
pub fn signatures(record: &Record, slot: &[u8]) -> [Signature; 2] {
    match record.expect(OPEN, slot, Record::full) {
        Err(_) => Default::default(),
        Ok(()) => {
            let file = record.file(slot);
            [vendor_signature(&file), firmware_signature(&file)]
        }
    }
}

/// A refusal that is a number alone.
fn alone(number: u32) -> Refusal {
    Refusal {
        number,
        part: 0,
        chunk: 0,
    }
}

/// Close: the file is accepted, or a refusal. Of the refusals only the check's ends the session.
pub fn plan_close(record: &mut Record, slot: &[u8], inputs: &Inputs) -> Result<Operation, Refusal> {
    record.expect(OPEN, slot, Record::full).map_err(alone)?;
    refuse_unless(is_erased(slot, 0), NOT_ERASED).map_err(alone)?;
    record.phase = OVER;
    check(Form::File, &record.file(slot), inputs)?;
    record.phase = ACCEPTED;
    record.operations += 1;
    Ok(Operation::StoreWord(0, record.first))
}

/// Close with its operation made, which then needs no confirm: Done, or a refusal.
pub fn close(record: &mut Record, slot: &mut [u8], inputs: &Inputs) -> Result<(), Refusal> {
    plan_close(record, slot, inputs)?.make(slot);
    record.phase = OVER;
    Ok(())
}

/// Confirm: Done if word 0 stands in the slot.
pub fn confirm(record: &mut Record, slot: &[u8]) -> Result<(), u32> {
    record.expect(ACCEPTED, slot, |_| true)?;
    refuse_unless(slot[..WORD] == record.first, NOT_LANDED)?;
    record.phase = OVER;
    Ok(())
}
