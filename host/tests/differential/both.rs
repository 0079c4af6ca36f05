//! One session run twice, by the archive and by the model, each with a record and a slot of its
//! own. After every call the answers, the records and all bytes of the slots are compared, and
//! the bytes around the slots too.

use crate::archive::installer::{self as archive, Words};
use crate::model::image::{Inputs, Refusal};
use crate::model::installer::{self as model, Asked, Operation, Record};
use std::ops::Range;

/// Bytes before a slot, and after it. The slot stands at an odd place. One that is lent too long
/// reaches into the bytes after it.
const BEFORE: usize = 61;
pub const AFTER: usize = 4_096;
const AROUND: u8 = 0x5a;

pub struct Both {
    words: Words,
    record: Record,
    /// The archive's slot, and the model's, each with the bytes around it.
    memory: Vec<u8>,
    expected: Vec<u8>,
    slot_length: usize,
    /// How much of the slot the next calls are lent.
    lent: usize,
}

/// The two forms of erase, fill and close: one makes its operation, the other hands it back.
#[derive(Clone, Copy, Debug, PartialEq, Eq)]
pub enum Way {
    Memory,
    Plan,
}

pub const WAYS: [Way; 2] = [Way::Memory, Way::Plan];

/// The session that words stand for. Words 8 to 15 are reserved.
fn record_of(words: &Words) -> Record {
    Record {
        phase: words[0],
        slot_length: words[1] as usize,
        file_length: words[2] as usize,
        pages_erased: words[3] as usize,
        bytes_taken: words[4] as usize,
        operations: words[5] as usize,
        first: words[6].to_le_bytes(),
        word: words[7].to_le_bytes(),
    }
}

/// Asserts that both records hold the same. Bytes that are not yet taken are left open, in the
/// first word and in the word in progress.
fn assert_same(archive: &Record, model: &Record) {
    let numbers = |record: &Record| {
        let (slot, file) = (record.slot_length, record.file_length);
        let (pages, bytes) = (record.pages_erased, record.bytes_taken);
        (record.phase, slot, file, pages, bytes, record.operations)
    };
    assert_eq!(numbers(archive), numbers(model));
    if model.bytes_taken >= 4 {
        assert_eq!(archive.first, model.first, "the first word");
    }
    let held = model.bytes_taken % 4;
    assert_eq!(
        archive.word[..held],
        model.word[..held],
        "the word in progress"
    );
}

/// Begin by both: the refusal, or none, and the record.
pub fn compare_begin(slot: &[u8], file_length: usize) -> (Option<u32>, Words) {
    let (refused, words) = archive::begin(slot, file_length);
    let (refused_by_model, record) = model::begin(slot.len(), file_length);
    assert_eq!(refused, refused_by_model, "begin");
    assert_same(&record_of(&words), &record);
    assert_eq!(words[8..], [0; 8], "the reserved words");
    if refused.is_some() {
        assert_eq!(words, [0; 16], "the record of a refused begin");
    }
    (refused, words)
}

impl Both {
    /// A session with any words, on a slot.
    pub fn with(words: Words, slot: &[u8]) -> Both {
        let memory = [&[AROUND; BEFORE], slot, &[AROUND; AFTER]].concat();
        Both {
            words,
            record: record_of(&words),
            expected: memory.clone(),
            memory,
            slot_length: slot.len(),
            lent: slot.len(),
        }
    }

    /// Begin: the refusal, or none, and the session.
    pub fn begin(slot: &[u8], file_length: usize) -> (Option<u32>, Both) {
        let (refused, words) = compare_begin(slot, file_length);
        (refused, Both::with(words, slot))
    }

    pub fn slot(&self) -> &[u8] {
        &self.memory[BEFORE..BEFORE + self.slot_length]
    }

    pub fn operations(&self) -> u32 {
        self.words[5]
    }

    /// Lends the next calls as many bytes: at most `AFTER` more than the slot has.
    pub fn lend(&mut self, length: usize) {
        self.lent = length;
    }

    /// Writes a byte behind the session's back.
    pub fn poke(&mut self, at: usize, byte: u8) {
        self.memory[BEFORE + at] = byte;
        self.expected[BEFORE + at] = byte;
    }

    fn view(&self) -> Range<usize> {
        BEFORE..BEFORE + self.lent
    }

    /// Makes a call by both. A record that the model leaves as it was stays as it was. The reserved
    /// words always stay.
    fn call<T: PartialEq + std::fmt::Debug>(
        &mut self,
        name: &str,
        by_archive: impl FnOnce(&mut Words, &mut [u8]) -> T,
        by_model: impl FnOnce(&mut Record, &mut [u8]) -> T,
    ) -> T {
        let (words, record, view) = (self.words, self.record.clone(), self.view());
        let answer = by_archive(&mut self.words, &mut self.memory[view.clone()]);
        let expected = by_model(&mut self.record, &mut self.expected[view]);
        assert_eq!(answer, expected, "{name}");
        assert!(self.memory == self.expected, "{name}: the slots differ");
        assert_same(&record_of(&self.words), &self.record);
        assert_eq!(self.words[8..], words[8..], "{name}: the reserved words");
        if self.record == record {
            assert_eq!(self.words, words, "{name}: an unchanged record");
        }
        answer
    }

    /// An erase that is planned, and the power is cut in its operation. Gives what is left of the
    /// slot; the record is lost.
    pub fn cut_in_erase(&mut self, chooses: &mut dyn FnMut() -> bool) -> Vec<u8> {
        let operation = self.plan_erase().expect("an erase whose turn it is");
        let mut left = self.slot().to_vec();
        operation.interrupt(&mut left, chooses);
        left
    }

    /// Makes an operation that a call has handed back. The call and this are one step.
    fn make(&mut self, operation: Operation) {
        let view = self.view();
        operation.make(&mut self.memory[view.clone()]);
        operation.make(&mut self.expected[view]);
    }

    fn plan_erase(&mut self) -> Result<Operation, u32> {
        let by_model = |record: &mut Record, slot: &mut [u8]| {
            model::plan_erase(record, slot) // the slot is only read
        };
        self.call("plan_erase", archive::plan_erase, by_model)
    }

    pub fn erase(&mut self, way: Way) -> Result<(), u32> {
        match way {
            Way::Memory => self.call("erase", archive::erase, model::erase),
            Way::Plan => {
                let operation = self.plan_erase()?;
                self.make(operation);
                Ok(())
            }
        }
    }

    pub fn fill(&mut self, way: Way, piece: &[u8]) -> Result<usize, u32> {
        match way {
            Way::Memory => self.call(
                "fill",
                |words, slot| archive::fill(words, piece, slot),
                |record, slot| model::fill(record, piece, slot),
            ),
            Way::Plan => {
                let (taken, operation) = self.call(
                    "plan_fill",
                    |words, slot| archive::plan_fill(words, piece, slot),
                    |record, slot| model::plan_fill(record, piece, slot),
                )?;
                self.make(operation);
                Ok(taken)
            }
        }
    }

    /// Ask, and the places of the signatures beside it.
    pub fn ask(&mut self) -> Result<Asked, u32> {
        self.call(
            "find_signatures",
            |words, slot| archive::signatures(words, slot),
            |record, slot| model::signatures(record, slot),
        );
        self.call(
            "ask",
            |words, slot| archive::ask(words, slot),
            |record, slot| model::ask(record, slot),
        )
    }

    /// A close alters nothing in the record but the phase and the count.
    pub fn close(&mut self, way: Way, inputs: &Inputs) -> Result<(), Refusal> {
        let words = self.words;
        let answer = match way {
            Way::Memory => self.call(
                "close",
                |words, slot| archive::close(words, slot, inputs),
                |record, slot| model::close(record, slot, inputs),
            ),
            Way::Plan => {
                let answer = self.call(
                    "plan_close",
                    |words, slot| archive::plan_close(words, slot, inputs),
                    |record, slot| model::plan_close(record, slot, inputs),
                );
                answer.map(|operation| self.make(operation))
            }
        };
        assert_eq!(self.words[1..5], words[1..5]);
        assert_eq!(self.words[6..8], words[6..8]);
        answer
    }

    /// A confirm alters nothing in the record but the phase.
    pub fn confirm(&mut self) -> Result<(), u32> {
        let words = self.words;
        let answer = self.call("confirm", archive::confirm, |record, slot| {
            model::confirm(record, slot)
        });
        assert_eq!(self.words[1..], words[1..]);
        answer
    }
}
