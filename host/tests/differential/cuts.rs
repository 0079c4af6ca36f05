//! Power cuts inside an erase: each word of the page is then as it was or erased, and the record is
//! lost. What is left is looked at as section 11 of the specification says, and the next session,
//! which starts with begin, installs to Done.

use crate::both::{Both, WAYS};
use crate::checks;
use crate::common::random::Random;
use crate::draft::{slot_length, Draft};
use crate::installs::install;
use crate::landed::Landed;
use crate::model::image::Form;
use crate::tally::{cases, Tally, ACCEPTED};

/// Which words of a page an erase has reached when the power is cut.
#[derive(Clone, Copy)]
enum Choice {
    None,
    All,
    Even,
    Odd,
    /// Each with one chance in so many.
    OneIn(usize),
    /// All but one in so many.
    AllButOneIn(usize),
}

const CHOICES: [Choice; 8] = [
    Choice::None,
    Choice::All,
    Choice::Even,
    Choice::Odd,
    Choice::OneIn(2),
    Choice::OneIn(2),
    Choice::OneIn(500),
    Choice::AllButOneIn(500),
];

impl Choice {
    /// What is chosen for each word in turn.
    fn chooses(self, random: &mut Random) -> impl FnMut() -> bool + '_ {
        let mut word = 0_usize;
        move || {
            word += 1;
            match self {
                Choice::None => false,
                Choice::All => true,
                Choice::Even => word % 2 == 1,
                Choice::Odd => word % 2 == 0,
                Choice::OneIn(count) => random.one_in(count),
                Choice::AllButOneIn(count) => !random.one_in(count),
            }
        }
    }
}

/// A file with inputs that accept it, and slots that it is installed over: an image to the slot's
/// end that starts with the same inputs, anything, and erased bytes.
struct Case {
    draft: Draft,
    found: [Vec<u8>; 3],
}

impl Case {
    fn new(random: &mut Random) -> Case {
        loop {
            let draft = Draft::small(Form::File, random);
            let length = slot_length(draft.file().len(), random);
            let to_the_end = |v: usize| length.saturating_sub(1_024 + v).max(4);
            let older = Draft::accepted_with(draft.inputs, Form::File, to_the_end, random).file();
            if older.len() == length {
                let found = [older, random.bytes(length), vec![255; length]];
                return Case { draft, found };
            }
        }
    }

    /// A session on this slot, with so many erases made and the power cut inside the next one. Gives
    /// what is left.
    fn cut(&self, found: &[u8], erases: usize, choice: Choice, random: &mut Random) -> Vec<u8> {
        let file_length = self.draft.file().len();
        let (refused, mut both) = Both::begin(found, file_length);
        let mut landed = Landed::after_begin(refused, found, file_length);
        for _ in 0..erases {
            let answer = both.erase(random.pick(&WAYS));
            landed.erase(answer, both.slot());
        }
        let left = both.cut_in_erase(&mut choice.chooses(random));
        landed.cut_in_erase(&left);
        left
    }

    /// The next session, on what is left: it installs to Done, with as many operations as any.
    fn begin_again(&self, left: &[u8], random: &mut Random) {
        let file = self.draft.file();
        let (answer, both) = install(left, &file, &self.draft.inputs, random, &mut |_| ());
        assert_eq!(answer, Ok(()));
        let operations = left.len() / 4_096 + file.len() / 4 + 1;
        assert_eq!(both.operations() as usize, operations);
        let row = checks::compare(Form::Slot, both.slot(), &self.draft.inputs);
        assert_eq!(row, ACCEPTED);
    }
}

/// Inside the first erase zero is stored or not. Inside any other a page is torn, and the boot check
/// says 1.
#[test]
fn the_power_fails_inside_every_erase() {
    let mut random = Random::new(711);
    let mut tally = Tally::new("boot checks after a cut inside an erase");
    for _ in 0..cases(6) {
        let case = Case::new(&mut random);
        for found in &case.found {
            for erases in 0..=found.len() / 4_096 {
                for choice in CHOICES {
                    let left = case.cut(found, erases, choice, &mut random);
                    let row = checks::compare(Form::Slot, &left, &case.draft.inputs);
                    tally.count((erases.min(1), row));
                    case.begin_again(&left, &mut random);
                }
            }
        }
    }
    tally.assert_exactly(10, &[(0, "S1"), (0, ACCEPTED), (1, "S1")]);
}

/// One session after another is cut inside an erase. Once zero stands in the first word nothing
/// starts, up to the session that installs to Done.
#[test]
fn cuts_one_after_another() {
    let mut random = Random::new(712);
    for _ in 0..cases(60) {
        let case = Case::new(&mut random);
        let mut slot = case.found[0].clone();
        let mut has_zero = false;
        for _ in 0..random.up_to(6) {
            let erases = random.up_to(slot.len() / 4_096);
            let choice = random.pick(&CHOICES);
            slot = case.cut(&slot, erases, choice, &mut random);
            has_zero |= erases > 0 || slot[..4] == [0; 4];
            let row = checks::compare(Form::Slot, &slot, &case.draft.inputs);
            assert_eq!(row, if has_zero { "S1" } else { ACCEPTED });
        }
        case.begin_again(&slot, &mut random);
    }
}
