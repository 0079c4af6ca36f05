//! The sig fields, the last 64 bytes of each header: what stands in them changes no answer. Two inputs
//! that differ there alone get the same from both checks and both digest questions. A chip judges
//! the sigs, and its verdicts are inputs of their own.

use crate::archive::image as archive;
use crate::checks::FORMS;
use crate::common::random::Random;
use crate::draft::Draft;
use crate::faults::{change, put, spoil};
use crate::model::image::{self as model, Form, Image, Inputs, Refusal, YES};
use crate::model::layout::Vendor;
use crate::tally::{cases, step, told, Tally, STEPS};
use std::ops::Range;

/// Lengths of vendor headers.
const LENGTHS: [usize; 3] = [512, 1_024, 65_536];

/// Where the two fields stand.
fn fields(v: usize) -> [Range<usize>; 2] {
    [v - 64..v, v + 960..v + 1_024]
}

fn sig_bytes(v: usize) -> impl Iterator<Item = usize> {
    fields(v).into_iter().flatten()
}

/// What the four calls answer about the same bytes.
#[derive(Clone, Copy, Debug, PartialEq)]
struct Answers {
    file: Result<Image, Refusal>,
    slot: Result<Image, Refusal>,
    vendor: Result<[u8; 32], Refusal>,
    firmware: Result<[u8; 32], Refusal>,
}

/// The answers of the archive, which are those of the model.
fn answers(bytes: &[u8], inputs: &Inputs) -> Answers {
    let [file, slot] = FORMS.map(|form| {
        let answer = archive::check(form, bytes, inputs);
        assert_eq!(answer, model::check(form, bytes, inputs), "{form:?}");
        answer
    });
    let vendor = archive::vendor_digest(bytes);
    assert_eq!(vendor, model::vendor_digest(bytes));
    let firmware = archive::firmware_digest(bytes);
    assert_eq!(firmware, model::firmware_digest(bytes));
    Answers {
        file,
        slot,
        vendor,
        firmware,
    }
}

/// With these a file of `accepted_file` is accepted.
const ACCEPTED_WITH: Inputs = Inputs {
    time: 50,
    m: 2,
    n: 3,
    vendor: YES,
    firmware: YES,
};

/// Its vendor header expires at 100 and its firmware header at 50. It has one word of code.
fn accepted_file(v: usize, random: &mut Random) -> Vec<u8> {
    let mut draft = Draft::with_v(v, 4, ACCEPTED_WITH, random);
    put(&mut draft.vendor, 8, 100);
    put(&mut draft.firmware, 8, 50);
    draft.bytes()
}

/// Each with the number and the part that such a file is answered with.
fn inputs_and_rows() -> [(Inputs, (u32, u32)); 7] {
    let with = |edit: fn(&mut Inputs)| {
        let mut inputs = ACCEPTED_WITH;
        edit(&mut inputs);
        inputs
    };
    [
        (ACCEPTED_WITH, (0, 0)),
        (with(|inputs| inputs.m = 4), (16, 0)),
        (with(|inputs| inputs.m = 1), (8, 1)),
        (with(|inputs| inputs.time = 101), (7, 1)),
        (with(|inputs| inputs.time = 51), (7, 2)),
        (with(|inputs| inputs.vendor = 0), (9, 1)),
        (with(|inputs| inputs.firmware = 0), (9, 2)),
    ]
}

/// Each byte alone, of a file and of a slot with erased bytes behind it.
#[test]
fn each_byte_alone() {
    let mut random = Random::new(2201);
    let mut tally = Tally::new("one byte of a sig changed");
    for v in LENGTHS {
        let file = accepted_file(v, &mut random);
        let in_slot = [&file[..], &[255; 77]].concat();
        for (inputs, row) in inputs_and_rows() {
            assert_eq!(told(&answers(&file, &inputs).file), row);
            assert_eq!(told(&answers(&in_slot, &inputs).slot), row);
            for bytes in [&file, &in_slot] {
                let right = answers(bytes, &inputs);
                for at in sig_bytes(v) {
                    let mut bytes = bytes.clone();
                    change(&mut bytes[at], &mut random);
                    assert_eq!(answers(&bytes, &inputs), right, "{at}, {inputs:?}");
                    tally.count(row);
                }
            }
        }
    }
    tally.assert_exactly(768, &inputs_and_rows().map(|(_, row)| row));
}

/// Changes each of these bytes that is there to another.
fn change_each(bytes: &mut [u8], places: impl Iterator<Item = usize>, random: &mut Random) {
    for at in places {
        if let Some(byte) = bytes.get_mut(at) {
            change(byte, random);
        }
    }
}

/// Each row of the S-table, but for S4: without a length of the vendor header there are no fields.
/// All of their bytes are changed, and then each alone.
#[test]
fn of_refused_inputs() {
    let mut random = Random::new(2202);
    let mut tally = Tally::new("sigs of refused inputs changed");
    let rows = STEPS.iter().enumerate().filter(|(_, row)| **row != "S4");
    for (i, row) in rows.clone() {
        for form in FORMS {
            for case in 0..cases(500) {
                let mut draft = Draft::small(form, &mut random);
                spoil(i, &mut draft, form, &mut random);
                let (length, v) = (draft.length(), Vendor(&draft.vendor).hdrlen());
                let same = |bytes: &[u8], right: &Answers| {
                    assert_eq!(answers(&bytes[..length], &draft.inputs), *right, "{row}");
                };

                let mut bytes = draft.bytes();
                let right = answers(&bytes[..length], &draft.inputs);
                let by_form = match form {
                    Form::File => right.file,
                    Form::Slot => right.slot,
                };
                assert_eq!(step(&by_form, length), *row);
                change_each(&mut bytes, sig_bytes(v), &mut random);
                same(&bytes, &right);
                if case < 2 {
                    for at in sig_bytes(v) {
                        change_each(&mut bytes, [at].into_iter(), &mut random);
                        same(&bytes, &right);
                    }
                }
                if length > v - 64 {
                    tally.count(*row);
                }
            }
        }
    }
    let rows: Vec<_> = rows.map(|(_, row)| *row).collect();
    tally.assert_exactly(1, &rows);
}

/// Lengths that end before, in and after each field.
fn cuts(v: usize, whole: usize) -> Vec<usize> {
    let around = |field: Range<usize>| {
        let (start, end) = (field.start, field.end);
        [start - 1, start, start + 1, end - 1, end, end + 1]
    };
    let cuts = [8, 100, 511, 512, whole].into_iter();
    cuts.chain(fields(v).into_iter().flat_map(around)).collect()
}

/// The bytes behind a cut are changed too, where no call may look.
#[test]
fn of_cut_inputs() {
    let mut random = Random::new(2203);
    let mut tally = Tally::new("sigs of cut inputs changed");
    for v in LENGTHS {
        let file = accepted_file(v, &mut random);
        for length in cuts(v, file.len()) {
            let row = match length {
                _ if length < v => (2, 1),
                _ if length < v + 1_024 => (2, 2),
                _ if length < file.len() => (2, 3),
                _ => (0, 0),
            };
            let right = answers(&file[..length], &ACCEPTED_WITH);
            assert_eq!(told(&right.file), row, "{length} of v = {v}");
            assert_eq!(told(&right.slot), row, "{length} of v = {v}");
            assert_eq!(right.vendor.is_ok(), length >= v);
            assert_eq!(right.firmware.is_ok(), length >= v + 1_024);
            for _ in 0..cases(10) {
                let mut bytes = file.clone();
                change_each(&mut bytes, sig_bytes(v), &mut random);
                let other = answers(&bytes[..length], &ACCEPTED_WITH);
                assert_eq!(other, right, "{length} of v = {v}");
                tally.count(row);
            }
        }
    }
    tally.assert_exactly(30, &[(2, 1), (2, 2), (2, 3), (0, 0)]);
}

/// One bit of a byte: at the edges of the fields it changes no answer, and beside them it does.
#[test]
fn edges_of_the_fields() {
    let mut random = Random::new(2204);
    for v in LENGTHS {
        let mut file = accepted_file(v, &mut random);
        let right = answers(&file, &ACCEPTED_WITH);
        let inside = [v - 64, v - 1, v + 960, v + 1_023].map(|at| (at, (0, 0)));
        let beside = [
            (v - 65, (8, 1)),     // the vendor header's sigmask
            (v, (10, 2)),         // the firmware header's first byte
            (v + 959, (8, 2)),    // its sigmask
            (v + 1_024, (14, 3)), // the first byte of code
        ];
        for (at, row) in inside.into_iter().chain(beside) {
            for bit in 0..8 {
                file[at] ^= 1 << bit;
                let other = answers(&file, &ACCEPTED_WITH);
                assert_eq!(told(&other.file), row, "{at} of v = {v}");
                assert_eq!(other == right, row == (0, 0), "{at} of v = {v}");
                file[at] ^= 1 << bit;
            }
        }
    }
}

/// The fields are all that no answer depends on: one bit of any other byte changes an answer.
#[test]
fn no_other_byte() {
    let mut random = Random::new(2205);
    for v in [512, 1_024] {
        let mut file = accepted_file(v, &mut random);
        let right = answers(&file, &ACCEPTED_WITH);
        for at in 0..file.len() {
            let bit = 1 << random.up_to(7);
            file[at] ^= bit;
            let is_sig = sig_bytes(v).any(|sig| sig == at);
            assert_eq!(answers(&file, &ACCEPTED_WITH) == right, is_sig, "{at}");
            file[at] ^= bit;
        }
    }
}
