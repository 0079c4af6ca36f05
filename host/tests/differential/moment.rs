//! A session at one moment: its record and slot, and what a caller would give it next.

use crate::archive::installer::Words;
use crate::common::random::Random;
use crate::draft::{any_inputs, slot_length};
use crate::faults::faulty_draft;
use crate::model::image::{Form, Inputs};

/// Phases of a record.
const OPEN: usize = 1;
const ACCEPTED: usize = 2;

pub struct Moment {
    pub words: Words,
    pub slot: Vec<u8>,
    /// The file, and what of it is not yet taken. Other bytes follow it.
    file: Vec<u8>,
    pub next: Vec<u8>,
    pub inputs: Inputs,
}

/// What a session has done: its phase, pages erased, and bytes taken.
fn stage(pages: usize, file_length: usize, random: &mut Random) -> [usize; 3] {
    match random.up_to(4) {
        0 => [OPEN, random.up_to(pages), 0],
        1 => [OPEN, pages, random.up_to(file_length)],
        2 => [ACCEPTED, pages, file_length],
        _ => [OPEN, pages, file_length],
    }
}

/// The slot's first word once the file is accepted: the file's own, mostly.
fn first_word(file: &[u8], random: &mut Random) -> [u8; 4] {
    let mut word: [u8; 4] = file[..4].try_into().expect("four bytes");
    match random.up_to(5) {
        0 => word = [255; 4],
        1 => word[random.up_to(3)] ^= 1 << random.up_to(7),
        _ => (),
    }
    word
}

/// The first word as the record has it once it is complete, and the word in progress. What they
/// hold of bytes that are not yet taken is noise.
fn kept(file: &[u8], taken: usize, random: &mut Random) -> [u32; 2] {
    let complete = taken / 4 * 4;
    let mut first = random.word().to_le_bytes();
    if complete >= 4 {
        first.copy_from_slice(&file[..4]);
    }
    let mut word = random.word().to_le_bytes();
    word[..taken - complete].copy_from_slice(&file[complete..taken]);
    [u32::from_le_bytes(first), u32::from_le_bytes(word)]
}

impl Moment {
    /// One that a session reaches, with a file that has a fault or none.
    pub fn live(random: &mut Random) -> Moment {
        let draft = faulty_draft(1, Form::File, random);
        let file = draft.file();
        let slot_length = slot_length(file.len(), random);
        let [phase, erased, taken] = stage(slot_length / 4_096, file.len(), random);
        let complete = taken / 4 * 4;

        let mut slot = random.bytes(slot_length);
        slot[..4].copy_from_slice(&random.pick(&[[0; 4], [255; 4], *b"TRZV"]));
        slot[..4_096 * erased].fill(255);
        if complete > 4 {
            slot[4..complete].copy_from_slice(&file[4..complete]);
        }

        let mut operations = 1 + erased + (complete / 4).saturating_sub(1);
        if erased == 0 && random.one_in(2) {
            operations = 0;
        }
        if phase == ACCEPTED {
            operations += 1;
            slot[..4].copy_from_slice(&first_word(&file, random));
        }

        let numbers = [phase, slot_length, file.len(), erased, taken, operations];
        let mut words = [0; 16];
        words[..6].copy_from_slice(&numbers.map(|number| number as u32));
        words[6..8].copy_from_slice(&kept(&file, taken, random));

        let next = [&file[taken..], &[0x77; 8]].concat();
        let inputs = draft.inputs;
        Moment {
            words,
            slot,
            file,
            next,
            inputs,
        }
    }

    /// Words of which each is a number that means something to some word.
    pub fn impossible(random: &mut Random) -> Moment {
        let words = std::array::from_fn(|_| {
            let any = random.word();
            random.pick(&[
                0,
                1,
                1,
                2,
                384,
                385,
                386,
                387,
                1_540,
                4_096,
                4_096,
                8_192,
                u32::MAX,
                any,
            ])
        });
        Moment {
            words,
            slot: random.bytes(4_096),
            file: Vec::new(),
            next: random.bytes(8),
            inputs: any_inputs(random),
        }
    }

    /// Where the next word is to be stored: the first, once all others are.
    pub fn word_to_store(&self) -> usize {
        self.words[4] as usize / 4 * 4 % self.file.len()
    }

    /// Writes the file's own word there.
    pub fn store_word(&mut self, at: usize) {
        self.slot[at..at + 4].copy_from_slice(&self.file[at..at + 4]);
    }
}
