//! "Done means landed" (specification, 11), watched from outside: a history told from the calls and
//! their answers alone, and after each call what must then be true of the slot, whichever call was
//! the last before the power failed, or inside which it failed. A call that hands its operation
//! back, and that operation made, are one step.

use crate::archive::image as archive;
use crate::both::Way;
use crate::common::random::Random;
use crate::draft::any_inputs;
use crate::model::image::{check, Form, Inputs, Refusal};
use crate::model::installer::Asked;

const PAGE: usize = 4_096;

/// One session from its begin on, on a slot that nobody else writes.
pub struct Landed {
    /// What the slot held at begin.
    found: Vec<u8>,
    /// What the calls so far say that it holds.
    then: Vec<u8>,
    file_length: usize,
    open: bool,
    erase_calls: usize,
    given: Vec<u8>,
    /// Whether an erase was not refused.
    erased: bool,
    /// Whether a close answered Done, or accepted.
    stored: bool,
    /// Whether a close answered accepted, and no confirm has answered Done since.
    waiting: bool,
    random: Random,
}

impl Landed {
    pub fn after_begin(refused: Option<u32>, found: &[u8], file_length: usize) -> Landed {
        Landed {
            found: found.to_vec(),
            then: found.to_vec(),
            file_length,
            open: refused.is_none(),
            erase_calls: 0,
            given: Vec::new(),
            erased: false,
            stored: false,
            waiting: false,
            random: Random::new(file_length as u64),
        }
    }

    fn pages(&self) -> usize {
        self.found.len() / PAGE
    }

    fn all_erased(&self) -> bool {
        self.erase_calls > self.pages()
    }

    pub fn all_given(&self) -> bool {
        self.given.len() == self.file_length
    }

    /// The bytes given so far.
    pub fn given(&self) -> usize {
        self.given.len()
    }

    pub fn is_erasing(&self) -> bool {
        self.open && !self.all_erased()
    }

    /// Whether a confirm is next.
    pub fn is_waiting(&self) -> bool {
        self.waiting
    }

    pub fn is_over(&self) -> bool {
        !self.open && !self.waiting
    }

    fn is_full(&self) -> bool {
        self.open && self.all_erased() && self.all_given()
    }

    pub fn erase(&mut self, answer: Result<(), u32>, slot: &[u8]) {
        if self.is_erasing() {
            assert_eq!(answer, Ok(()), "an erase whose turn it is");
            match self.erase_calls {
                0 => self.then[..4].fill(0),
                calls => self.then[PAGE * (calls - 1)..][..PAGE].fill(255),
            }
        } else {
            assert_eq!(answer, Err(19), "an erase out of turn");
        }
        self.erased |= answer.is_ok();
        self.erase_calls += usize::from(self.open);
        if self.open && self.erase_calls == self.pages() + 1 {
            assert!(slot.iter().all(|byte| *byte == 255), "all pages are erased");
        }
        self.look_at(slot);
    }

    pub fn fill(&mut self, piece: &[u8], answer: Result<usize, u32>, slot: &[u8]) {
        if self.open && self.all_erased() {
            let missing = self.file_length - self.given.len();
            let to_the_word = 4 - self.given.len() % 4;
            let allowed = piece.len().min(to_the_word).min(missing);
            assert_eq!(answer, Ok(allowed), "a fill whose turn it is");
            assert!(allowed > 0 || piece.is_empty() || missing == 0);
            self.given.extend(&piece[..allowed]);
            let complete = self.given.len() / 4 * 4;
            if allowed == to_the_word && complete > 4 {
                self.store(complete - 4);
            }
        } else {
            assert_eq!(answer, Err(19), "a fill out of turn");
        }
        self.look_at(slot);
    }

    /// The given word at its place.
    fn store(&mut self, at: usize) {
        self.then[at..at + 4].copy_from_slice(&self.given[at..at + 4]);
    }

    pub fn ask(&mut self, answer: &Result<Asked, u32>, slot: &[u8]) {
        match self.is_full() {
            true => assert!(answer.is_ok(), "an ask whose turn it is"),
            false => assert_eq!(*answer, Err(19), "an ask out of turn"),
        }
        self.look_at(slot);
    }

    pub fn close(&mut self, way: Way, inputs: &Inputs, answer: Result<(), Refusal>, slot: &[u8]) {
        if self.is_full() {
            let by_file_check = check(Form::File, &self.given, inputs).map(|_| ());
            assert_eq!(answer, by_file_check, "a close whose turn it is");
            self.open = false;
        } else {
            let number = answer.map_err(|refusal| refusal.number);
            assert_eq!(number, Err(19), "a close out of turn");
        }
        if answer.is_ok() {
            self.stored = true;
            self.waiting = way == Way::Plan;
            self.store(0);
            assert!(
                archive::check(Form::Slot, slot, inputs).is_ok(),
                "the boot check"
            );
        }
        self.look_at(slot);
    }

    pub fn confirm(&mut self, answer: Result<(), u32>, slot: &[u8]) {
        let expected = if self.waiting { Ok(()) } else { Err(19) };
        assert_eq!(answer, expected, "a confirm");
        self.waiting = false;
        self.look_at(slot);
    }

    /// What holds where the power is cut inside an erase that was not refused. That call is not
    /// counted.
    pub fn cut_in_erase(&mut self, left: &[u8]) {
        assert!(self.is_erasing());
        let Some(page) = self.erase_calls.checked_sub(1) else {
            let zero = [&[0; 4], &self.found[4..]].concat();
            let is_made_or_not = left == self.found || left == zero;
            assert!(is_made_or_not, "zero is stored, or not");
            return;
        };
        let torn = PAGE * page..PAGE * (page + 1);
        assert_eq!(left.len(), self.then.len());
        for (at, (word, old)) in left.chunks(4).zip(self.then.chunks(4)).enumerate() {
            let is_erased = torn.contains(&(4 * at)) && word == [255; 4];
            assert!(word == old || is_erased, "each word as it was or erased");
        }
        self.assert_unbootable(left);
    }

    /// The first word is zero or erased, and the boot check refuses with 1, for any inputs.
    fn assert_unbootable(&mut self, slot: &[u8]) {
        let is_hidden = slot[..4] == [0; 4] || slot[..4] == [255; 4];
        assert!(is_hidden, "the first word is zero or erased");
        let answer = archive::check(Form::Slot, slot, &any_inputs(&mut self.random));
        assert_eq!(answer.map_err(|refusal| refusal.number), Err(1));
    }

    /// What holds after any call.
    fn look_at(&mut self, slot: &[u8]) {
        assert!(slot == self.then, "what the calls so far say");
        if !self.erased {
            assert!(slot == self.found, "as found until the first erase");
        } else if !self.stored {
            self.assert_unbootable(slot);
        } else {
            let (file, after) = slot.split_at(self.file_length);
            assert!(file == self.given, "the file, from Done on");
            assert!(
                after.iter().all(|byte| *byte == 255),
                "erased bytes after it"
            );
        }
    }
}
