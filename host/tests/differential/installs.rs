//! Whole installs, in both forms, with the power cut after every call: what the boot check says of the slot as it
//! then stands, by the archive and by the model.

use crate::both::{Both, Way, WAYS};
use crate::checks;
use crate::common::random::Random;
use crate::draft::{slot_length, Draft};
use crate::faults::spoil;
use crate::landed::Landed;
use crate::model::image::{Form, Inputs, Refusal};
use crate::tally::{cases, Tally, ACCEPTED, STEPS};

/// One install, watched. After each call `look` is given the slot.
struct Install<'a> {
    both: Both,
    landed: Landed,
    file: &'a [u8],
    look: &'a mut dyn FnMut(&[u8]),
}

impl Install<'_> {
    fn erase_all(&mut self, random: &mut Random) {
        while self.landed.is_erasing() {
            let answer = self.both.erase(random.pick(&WAYS));
            self.landed.erase(answer, self.both.slot());
            (self.look)(self.both.slot());
        }
    }

    fn fill_all(&mut self, random: &mut Random) {
        while !self.landed.all_given() {
            let rest = &self.file[self.landed.given()..];
            let length = random.pick(&[1, 2, 3, 4, 4, 4, 4, 64]);
            let piece = &rest[..length.min(rest.len())];
            let answer = self.both.fill(random.pick(&WAYS), piece);
            self.landed.fill(piece, answer, self.both.slot());
            (self.look)(self.both.slot());
        }
    }

    /// Close, and confirm where it is due.
    fn close(&mut self, way: Way, inputs: &Inputs) -> Result<(), Refusal> {
        assert!(self.both.ask().is_ok());
        let answer = self.both.close(way, inputs);
        self.landed.close(way, inputs, answer, self.both.slot());
        (self.look)(self.both.slot());
        if self.landed.is_waiting() {
            let answer = self.both.confirm();
            self.landed.confirm(answer, self.both.slot());
            (self.look)(self.both.slot());
        }
        answer
    }
}

/// Installs a file. Tells what the close answered, and the session.
pub fn install(
    found: &[u8],
    file: &[u8],
    inputs: &Inputs,
    random: &mut Random,
    look: &mut dyn FnMut(&[u8]),
) -> (Result<(), Refusal>, Both) {
    let (refused, both) = Both::begin(found, file.len());
    assert_eq!(refused, None);
    let landed = Landed::after_begin(refused, found, file.len());
    look(both.slot());
    let mut install = Install {
        both,
        landed,
        file,
        look,
    };
    install.erase_all(random);
    install.fill_all(random);
    (install.close(random.pick(&WAYS), inputs), install.both)
}

/// Before the first erase the slot starts as it was found; then it does not start; after Done it
/// starts. Three kinds of slots are found: an image that starts, anything, and erased bytes.
#[test]
fn the_power_fails_after_every_call() {
    let mut random = Random::new(701);
    let mut tally = Tally::new("boot checks after a cut");
    for _ in 0..cases(300) {
        let draft = Draft::small(Form::File, &mut random);
        let older = Draft::accepted_with(draft.inputs, Form::File, |_| 8, &mut random);
        let (file, mut older) = (draft.file(), older.file());
        let length = slot_length(file.len().max(older.len()), &mut random);
        older.resize(length, 255);
        for found in [older, random.bytes(length), vec![255; length]] {
            let mut look = |slot: &[u8]| {
                tally.count(checks::compare(Form::Slot, slot, &draft.inputs));
            };
            let (answer, both) = install(&found, &file, &draft.inputs, &mut random, &mut look);
            assert_eq!(answer, Ok(()));
            let operations = length / 4_096 + file.len() / 4 + 1;
            assert_eq!(both.operations() as usize, operations);
        }
    }
    tally.assert_exactly(1_200, &["S1", ACCEPTED]);
}

/// The marked number P12.
#[test]
fn p12_402_operations() {
    let mut random = Random::new(702);
    let draft = Draft::smallest(Form::File, &mut random);
    let file = draft.file();
    assert_eq!(file.len(), 1_540);
    let found = random.bytes(65_536);
    let (answer, both) = install(&found, &file, &draft.inputs, &mut random, &mut |_| ());
    assert_eq!(answer, Ok(()));
    assert_eq!(both.operations(), 402);
}

/// A file that the check refuses does not start. Nor does it stay in the way of the next.
#[test]
fn refused_files() {
    let mut random = Random::new(703);
    let mut tally = Tally::new("closes of faulty files");
    for (i, row) in STEPS.iter().enumerate() {
        for _ in 0..cases(12) {
            let good = Draft::small(Form::File, &mut random);
            let mut bad = good.clone();
            spoil(i, &mut bad, Form::File, &mut random);
            let (file, next) = (bad.file(), good.file());
            let found = vec![255; slot_length(file.len().max(next.len()), &mut random)];
            let (answer, both) = install(&found, &file, &bad.inputs, &mut random, &mut |_| ());
            tally.count((*row, answer.is_ok()));

            let left = both.slot();
            let (answer, _) = install(left, &next, &good.inputs, &mut random, &mut |_| ());
            assert_eq!(answer, Ok(()));
        }
    }
    tally.assert_seen(5, &STEPS.map(|row| (row, false)));
}

/// After each cut another install is begun on the slot as it then stands, and lands.
#[test]
fn begin_again_after_any_cut() {
    let mut random = Random::new(704);
    for _ in 0..cases(2) {
        let first = Draft::smallest(Form::File, &mut random);
        let second = Draft::smallest(Form::File, &mut random);
        let found = random.bytes(8_192);
        let mut cuts = Vec::new();
        let mut look = |slot: &[u8]| cuts.push(slot.to_vec());
        let (answer, _) = install(&found, &first.file(), &first.inputs, &mut random, &mut look);
        assert_eq!(answer, Ok(()));
        assert!(cuts.len() > 385);

        for left in cuts {
            let file = second.file();
            let (answer, _) = install(&left, &file, &second.inputs, &mut random, &mut |_| ());
            assert_eq!(answer, Ok(()));
        }
    }
}

/// Code in two chunks, in a slot with a page to spare and in one that the file fills.
#[test]
fn larger_installs() {
    let mut random = Random::new(705);
    let mut looks = 0_u64;
    for _ in 0..cases(1) {
        for spare in [4_096, 0] {
            let to_37_pages = |v: usize| 151_552 - 1_024 - v;
            let draft = Draft::with_code(Form::File, to_37_pages, &mut random);
            let file = draft.file();
            let found = vec![0; file.len() + spare];
            let mut look = |_: &[u8]| looks += 1;
            let (answer, _) = install(&found, &file, &draft.inputs, &mut random, &mut look);
            assert_eq!(answer, Ok(()));
        }
    }
    assert!(looks >= 2 * 151_552 / 4);
}
