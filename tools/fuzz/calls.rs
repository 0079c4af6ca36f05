//! Target `calls`: a file with a fault or none, then a list of calls after a begin, in turn or not,
//! and in either form: one that hands its operation back, and the operation made, are one step.
//! Record and slot are carried on, also into the next begin, and compared after every call. On a
//! slot that nobody else writes, "done means landed" (specification, 11) is watched too.

use crate::both::{Both, Way, AFTER, WAYS};
use crate::check::compare_check;
use crate::draft::{any_inputs, slot_length};
use crate::faults::faulty_draft;
use crate::input::Input;
use crate::landed::Landed;
use crate::model::image::{Form, Inputs};
use crate::LONGEST_SLOT;

/// Of one input, so that it is quick.
const MOST_CALLS: usize = 4_096;

pub fn target(mut head: Input, mut list: Input) {
    let draft = faulty_draft(1, Form::File, &mut head);
    let file = draft.file();
    let length = slot_length(file.len(), &mut head);
    if length > LONGEST_SLOT {
        return;
    }
    let found = head.bytes(length);
    let (both, landed) = begin(&found, file.len());
    let mut install = Install {
        file,
        inputs: draft.inputs,
        both,
        landed,
        given: 0,
        calls: 1,
    };
    while !list.has_ended() && install.calls < MOST_CALLS {
        install.step(&mut list);
        compare_check(Form::Slot, install.both.slot(), &install.inputs);
    }
}

/// Begin by both, and the watcher.
fn begin(slot: &[u8], file_length: usize) -> (Both, Option<Landed>) {
    let (refused, both) = Both::begin(slot, file_length);
    let landed = Landed::after_begin(refused, slot, file_length);
    (both, Some(landed))
}

struct Install {
    file: Vec<u8>,
    inputs: Inputs,
    both: Both,
    /// None from the moment that somebody else writes the slot.
    landed: Option<Landed>,
    /// Bytes taken since begin.
    given: usize,
    calls: usize,
}

impl Install {
    /// One item of the list: a call, a run of calls whose turn it is, or an act of somebody else.
    fn step(&mut self, list: &mut Input) {
        let item = list.up_to(33);
        let way = WAYS[item / 17];
        match item % 17 {
            0 => while self.erase(way) {},
            1 => _ = self.erase(way),
            2 | 3 => while self.fill_next(way, 4) > 0 {},
            4 => self.fill_some(way, list),
            5 => _ = self.fill_next(way, list.up_to(6)),
            6 => _ = self.fill(way, &list.word().to_le_bytes()),
            7 => self.ask(),
            8 | 9 => self.close(way, self.inputs),
            10 => self.close(way, any_inputs(list)),
            11 => self.confirm(),
            12 => self.meddle(list),
            13 => self.lend_another_length(way, list),
            14 => self.begin_again(self.both.slot().len(), self.file.len()),
            15 => self.cut_in_erase(list),
            _ => self.begin_with_any_lengths(list),
        }
    }

    fn erase(&mut self, way: Way) -> bool {
        self.calls += 1;
        let answer = self.both.erase(way);
        if let Some(landed) = &mut self.landed {
            landed.erase(answer, self.both.slot());
        }
        answer.is_ok()
    }

    /// Gives a piece, and tells how many bytes were taken.
    fn fill(&mut self, way: Way, piece: &[u8]) -> usize {
        self.calls += 1;
        let answer = self.both.fill(way, piece);
        if let Some(landed) = &mut self.landed {
            landed.fill(piece, answer, self.both.slot());
        }
        self.given += answer.unwrap_or(0);
        answer.unwrap_or(0)
    }

    /// Gives the next bytes of the file, and after its end others.
    fn fill_next(&mut self, way: Way, length: usize) -> usize {
        let rest = self.file.get(self.given..).unwrap_or(&[]);
        let mut piece = rest[..length.min(rest.len())].to_vec();
        piece.resize(length, 0x77);
        self.fill(way, &piece)
    }

    /// Gives some pieces of one length, as long as bytes are taken.
    fn fill_some(&mut self, way: Way, list: &mut Input) {
        let (mut count, length) = (list.byte(), 1 + list.up_to(5));
        while count > 0 && self.fill_next(way, length) > 0 {
            count -= 1;
        }
    }

    fn ask(&mut self) {
        self.calls += 1;
        let answer = self.both.ask();
        if let Some(landed) = &mut self.landed {
            landed.ask(&answer, self.both.slot());
        }
    }

    fn close(&mut self, way: Way, inputs: Inputs) {
        self.calls += 1;
        let answer = self.both.close(way, &inputs);
        if let Some(landed) = &mut self.landed {
            landed.close(way, &inputs, answer, self.both.slot());
        }
    }

    fn confirm(&mut self) {
        self.calls += 1;
        let answer = self.both.confirm();
        if let Some(landed) = &mut self.landed {
            landed.confirm(answer, self.both.slot());
        }
    }

    /// Somebody else writes a byte or a word: the first, the one about to be stored, or any.
    fn meddle(&mut self, list: &mut Input) {
        let length = self.both.slot().len();
        let any = list.up_to(LONGEST_SLOT);
        let word = list.pick(&[0, self.given, any]) / 4 * 4;
        let (from, to) = list.pick(&[(0, 1), (3, 4), (0, 4)]);
        let byte = list.pick(&[255, 254, 127, 0]);
        for at in (word + from..word + to).filter(|at| *at < length) {
            self.both.poke(at, byte);
        }
        self.landed = None;
    }

    /// For one call, which changes nothing, so that the watcher need not know of it.
    fn lend_another_length(&mut self, way: Way, list: &mut Input) {
        let length = self.both.slot().len();
        let less = list.pick(&[4, 4_096, length]);
        let another = list.pick(&[length.saturating_sub(less), length + AFTER]);
        let landed = self.landed.take();
        self.both.lend(another);
        match list.up_to(4) {
            0 => _ = self.erase(way),
            1 => _ = self.fill_next(way, 4),
            2 => self.ask(),
            3 => self.close(way, self.inputs),
            _ => self.confirm(),
        }
        self.both.lend(length);
        self.landed = landed;
    }

    /// The power is cut inside an erase, where that is next, and a session begins on what is left.
    fn cut_in_erase(&mut self, list: &mut Input) {
        let Some(landed) = self.landed.as_mut().filter(|landed| landed.is_erasing()) else {
            return;
        };
        let choice = list.bytes(8);
        let mut bit = 0;
        let left = self.both.cut_in_erase(&mut || {
            bit += 1;
            choice[bit / 8 % 8] >> (bit % 8) & 1 == 1
        });
        landed.cut_in_erase(&left);
        self.begin_on(&left, self.file.len());
    }

    /// Begins on the slot as it stands, shortened or with other bytes after it.
    fn begin_again(&mut self, slot_length: usize, file_length: usize) {
        let mut slot = self.both.slot().to_vec();
        slot.resize(slot_length, 0x5a);
        self.begin_on(&slot, file_length);
    }

    fn begin_on(&mut self, slot: &[u8], file_length: usize) {
        (self.both, self.landed) = begin(slot, file_length);
        self.given = 0;
        self.calls += 1;
    }

    fn begin_with_any_lengths(&mut self, list: &mut Input) {
        let (slot, file) = (self.both.slot().len(), self.file.len());
        let any = list.up_to(LONGEST_SLOT);
        let slot = list.pick(&[slot, 4_096, 8_192, 16_384, 0, 4_092, 4_097, any]);
        let any = list.word() as usize;
        let above = (1 << 32) + file;
        let file = list.pick(&[file, 1_540, 1_544, slot, slot + 4, 1_536, 1_541, any, above]);
        self.begin_again(slot, file);
    }
}
