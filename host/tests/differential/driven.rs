//! Installs by the wrapper's `Installer`, over a flash that fails, does nothing or loses power, at
//! every operation and inside it. After each, the boot check says what docs/DONE.md and section 11
//! of the specification say, nothing more can be done with the installer, and the next install
//! lands.

use crate::checks;
use crate::common::random::Random;
use crate::draft::{any_inputs, Draft};
use crate::faults::faulty_draft;
use crate::model::image::{self as model, Form};
use crate::tally::{cases, Tally, ACCEPTED};
use crate::wrapper::{alone, inputs, refusal};
use thimmorel::simulated::{SimulatedError, SimulatedFlash};
use thimmorel::{Flash, InstallError, Installer, Progress};

pub const SLOT: usize = 8_192;
const PAGES: u32 = 2;

/// A whole install, from begin on. It ends at the first error.
pub fn install<F: Flash>(
    installer: &mut Installer<F>,
    file: &[u8],
    inputs: thimmorel::Inputs,
) -> Result<(), InstallError<F::Error>> {
    installer.erase_all()?;
    for piece in file.chunks(100) {
        assert_eq!(installer.fill_all(piece)?, piece.len());
    }
    installer.ask()?;
    installer.signatures()?;
    installer.close(inputs)
}

#[derive(Clone, Copy, Debug, PartialEq, Eq, PartialOrd, Ord)]
enum Fault {
    Fail,
    Skip,
    CutBefore,
    CutAfter,
    CutInside,
}

const FAULTS: [Fault; 5] = [
    Fault::Fail,
    Fault::Skip,
    Fault::CutBefore,
    Fault::CutAfter,
    Fault::CutInside,
];

impl Fault {
    /// The flash with this fault at an operation. What a cut inside it leaves is as chosen.
    fn at<'a>(
        self,
        operation: u32,
        is_made: &'a (dyn Fn(usize) -> bool + Sync),
        flash: SimulatedFlash<'a>,
    ) -> SimulatedFlash<'a> {
        match self {
            Fault::Fail => flash.fail_at(operation),
            Fault::Skip => flash.skip_at(operation),
            Fault::CutBefore => flash.cut_before(operation),
            Fault::CutAfter => flash.cut_after(operation),
            Fault::CutInside => flash.cut_inside(operation, is_made),
        }
    }

    /// What the installer says of it, where the operation was to write at this offset.
    fn error(self, offset: usize) -> InstallError<SimulatedError> {
        match self {
            Fault::Fail => InstallError::Flash(SimulatedError::Failed),
            Fault::Skip => InstallError::NotLanded { offset },
            _ => InstallError::Flash(SimulatedError::PowerLost),
        }
    }
}

/// The first operation stores zero in the first word. The pages follow it.
const ERASES: std::ops::RangeInclusive<u32> = 2..=1 + PAGES;

/// Where an operation of an install writes: the first word, the pages, the words from the second
/// on, the first.
fn offset(operation: u32, last: u32) -> usize {
    match operation {
        page if ERASES.contains(&page) => 4_096 * (page as usize - 2),
        operation if operation == 1 || operation == last => 0,
        word => 4 * (word - 1 - PAGES) as usize,
    }
}

/// Asserts that every call refuses with 19.
pub fn assert_dropped<F: Flash>(installer: &mut Installer<F>, inputs: thimmorel::Inputs)
where
    F::Error: PartialEq + std::fmt::Debug,
{
    let turn = || InstallError::Refused(alone(19));
    assert_eq!(installer.erase(), Err(turn()));
    assert_eq!(installer.erase_all(), Err(turn()));
    assert_eq!(installer.fill(b"code"), Err(turn()));
    assert_eq!(installer.fill_all(b""), Err(turn()));
    assert_eq!(installer.ask(), Err(turn()));
    assert_eq!(installer.signatures(), Err(turn()));
    assert_eq!(installer.close(inputs), Err(turn()));
}

/// A file of 1,540 bytes, which one install puts over different slots.
pub struct Case {
    pub file: Vec<u8>,
    pub inputs: model::Inputs,
    /// How many operations the install has.
    pub last: u32,
}

impl Case {
    /// No word of the file is all 255, so that a store that does not happen can be seen.
    pub fn new(random: &mut Random) -> Case {
        loop {
            let draft = Draft::smallest(Form::File, random);
            let file = draft.file();
            if file.chunks(4).all(|word| word != [255; 4]) {
                return Case {
                    last: 1 + PAGES + file.len() as u32 / 4,
                    inputs: draft.inputs,
                    file,
                };
            }
        }
    }

    /// What is found: an image that starts, with the same inputs and no erased page, and anything.
    fn found(&self, random: &mut Random) -> [Vec<u8>; 2] {
        loop {
            let to_the_end = |v: usize| SLOT.saturating_sub(1_024 + v).max(4);
            let older = Draft::accepted_with(self.inputs, Form::File, to_the_end, random);
            if older.file().len() == SLOT {
                return [older.file(), random.bytes(SLOT)];
            }
        }
    }

    /// An install with a fault at one operation, begun on this slot.
    fn try_fault(&self, fault: Fault, operation: u32, found: &[u8], random: &mut Random) -> Row {
        let mut slot = found.to_vec();
        let in_256 = random.pick(&[0, 1, 128, 255, 256]);
        let choice: Vec<bool> = (0..1_024).map(|_| random.up_to(255) < in_256).collect();
        let is_made = |word: usize| choice[word];
        let flash = fault.at(operation, &is_made, SimulatedFlash::new(&mut slot));
        let mut installer = Installer::begin(flash, self.file.len()).expect("good lengths");
        let answer = install(&mut installer, &self.file, inputs(&self.inputs));
        let error = fault.error(offset(operation, self.last));
        assert_eq!(answer, Err(error), "{fault:?} at {operation}");
        assert_eq!(installer.flash().operations(), operation);
        assert_dropped(&mut installer, inputs(&self.inputs));

        let made = match fault {
            Fault::CutAfter => operation,
            Fault::CutInside if choice[0] && !ERASES.contains(&operation) => operation,
            _ => operation - 1,
        };
        let row = self.look_at(&slot, made, found, random);
        self.begin_again(&mut slot);
        row
    }

    /// What the boot check says after so many operations, for these inputs and for others.
    fn look_at(&self, slot: &[u8], made: u32, found: &[u8], random: &mut Random) -> Row {
        let row = checks::compare(Form::Slot, slot, &self.inputs);
        if made == 0 {
            assert!(slot == found, "as found");
        } else if made < self.last {
            assert_eq!(row, "S1");
            let any = any_inputs(random);
            assert_eq!(checks::compare(Form::Slot, slot, &any), "S1");
        } else {
            let (file, after) = slot.split_at(self.file.len());
            assert!(file == self.file, "the file");
            assert!(after.iter().all(|byte| *byte == 255), "erased bytes");
            assert_eq!(row, ACCEPTED);
        }
        row
    }

    /// The next install lands.
    fn begin_again(&self, slot: &mut [u8]) {
        let flash = SimulatedFlash::new(slot);
        let mut installer = Installer::begin(flash, self.file.len()).expect("good lengths");
        let answer = install(&mut installer, &self.file, inputs(&self.inputs));
        assert_eq!(answer, Ok(()));
        assert_eq!(installer.into_flash().operations(), self.last);
        assert_eq!(checks::compare(Form::Slot, slot, &self.inputs), ACCEPTED);
    }
}

/// The step of the boot check that answered.
type Row = &'static str;

#[test]
fn a_fault_at_every_operation() {
    let mut random = Random::new(901);
    let mut tally = Tally::new("boot checks after a fault");
    for _ in 0..cases(1) {
        let case = Case::new(&mut random);
        assert_eq!(case.last, 388);
        for found in case.found(&mut random) {
            for fault in FAULTS {
                for operation in 1..=case.last {
                    let row = case.try_fault(fault, operation, &found, &mut random);
                    tally.count((fault, row));
                }
            }
        }
    }
    let refused = FAULTS.map(|fault| (fault, "S1"));
    tally.assert_seen(700, &refused);
    // Before the first erase the older image starts, and after the last store the new one.
    tally.assert_exactly(
        1,
        &[&refused[..], &FAULTS.map(|fault| (fault, ACCEPTED))].concat(),
    );
}

/// A word that is zero already, or a page that is erased, may be left as it is: what is read back
/// decides. Page 0 is never erased already, since zero stands in its first word.
#[test]
fn an_operation_that_had_nothing_to_do() {
    let case = Case::new(&mut Random::new(902));
    for operation in [1, 3] {
        let mut slot = [255; SLOT];
        slot[..4].fill(0);
        let flash = SimulatedFlash::new(&mut slot).skip_at(operation);
        let mut installer = Installer::begin(flash, case.file.len()).expect("good lengths");
        let answer = install(&mut installer, &case.file, inputs(&case.inputs));
        assert_eq!(answer, Ok(()));
        let row = checks::compare(Form::Slot, &slot, &case.inputs);
        assert_eq!(row, ACCEPTED);
    }
}

/// The close tells the refusal of the check, and the installer is then over.
#[test]
fn faulty_files() {
    let mut random = Random::new(903);
    let mut tally = Tally::new("faulty files by the installer");
    for _ in 0..cases(500) {
        let draft = faulty_draft(1, Form::File, &mut random);
        let file = draft.file();
        let mut slot = vec![0; file.len().next_multiple_of(4_096)];
        let mut flash = SimulatedFlash::new(&mut slot);
        let mut installer = Installer::begin(&mut flash, file.len()).expect("good lengths");
        let answer = install(&mut installer, &file, inputs(&draft.inputs));
        let by_model = model::check(Form::File, &file, &draft.inputs).map(|_| ());
        assert_eq!(
            answer,
            by_model.map_err(|refused| InstallError::Refused(refusal(refused)))
        );
        assert_dropped(&mut installer, inputs(&draft.inputs));
        tally.count(checks::compare(Form::Slot, &slot, &draft.inputs));
    }
    tally.assert_exactly(100, &["S1", ACCEPTED]);
}

/// Calls out of turn are refused and change nothing, and the install goes on.
#[test]
fn calls_out_of_turn() {
    let case = Case::new(&mut Random::new(904));
    let mut slot = [0; SLOT];
    let begun = Installer::begin(SimulatedFlash::new(&mut slot), 1_536);
    assert_eq!(begun.err(), Some(InstallError::Refused(alone(18))));
    let begun = Installer::begin(SimulatedFlash::new(&mut slot[1..]), 1_540);
    assert_eq!(begun.err(), Some(InstallError::Refused(alone(22))));

    let flash = SimulatedFlash::new(&mut slot);
    let mut installer = Installer::begin(flash, case.file.len()).expect("good lengths");
    let turn = || InstallError::Refused(alone(19));
    assert_eq!(installer.fill(&case.file), Err(turn()));
    assert_eq!(installer.ask(), Err(turn()));
    assert_eq!(installer.erase_all(), Ok(()));
    assert_eq!(installer.erase_all(), Err(turn()));
    assert_eq!(installer.signatures(), Err(turn()));
    assert_eq!(installer.close(inputs(&case.inputs)), Err(turn()));

    let longer = [&case.file[..], b"more"].concat();
    assert_eq!(installer.fill_all(&longer), Ok(case.file.len()));
    assert_eq!(installer.fill_all(b"more"), Ok(0));
    let progress = Progress {
        pages_erased: 2,
        pages: 2,
        bytes_taken: 1_540,
        bytes: 1_540,
    };
    assert_eq!(installer.progress(), progress);
    assert_eq!(installer.close(inputs(&case.inputs)), Ok(()));
    assert_dropped(&mut installer, inputs(&case.inputs));
    assert_eq!(installer.progress(), progress);
    let shown = format!("{installer:?}");
    assert!(shown.len() < 200, "{shown}");
}
