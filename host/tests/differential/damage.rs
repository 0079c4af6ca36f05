//! The checks of damaged images: every byte of an image set to every other value, fields set to
//! values at their edges, and images cut at every length.

use crate::checks::{compare, compare_draft};
use crate::common::random::Random;
use crate::damages::with_every_byte_off;
use crate::draft::Draft;
use crate::model::image::Form;
use crate::tally::{cases, Tally, ACCEPTED};

#[test]
fn every_byte_of_an_image() {
    let mut random = Random::new(201);
    let mut tally = Tally::new("checks with one byte off");
    for form in [Form::File, Form::Slot] {
        for _ in 0..cases(1) {
            let draft = Draft::smallest(form, &mut random);
            with_every_byte_off(&draft.bytes(), |bytes| {
                tally.count(compare(form, bytes, &draft.inputs));
            });
        }
    }
    let found = [
        "S1", "S4", "S6", "S8", "S10", "S13", "S14", "S16", "S17", "S19", "S21", "S23/14",
        "S23/15", ACCEPTED,
    ];
    tally.assert_seen(100, &found);
}

/// Where the fields of both headers stand, counted from the image's start.
fn fields(draft: &Draft) -> Vec<usize> {
    let v = draft.v();
    let string = 32 + draft.fields.keys.len();
    let vendor = [4, 8, 12, 13, 14, 15, 16, string, v - 65];
    let firmware = [4, 8, 12, 16, 20, 32, 959].map(|at| v + at);
    [&vendor[..], &firmware].concat()
}

fn edge_values(random: &mut Random) -> u32 {
    let small = random.up_to(300) as u32;
    let near = random.pick(&[512, 1_024, 65_536, 2_095_616, 2_097_152, u32::MAX - 4]);
    let any = random.word();
    random.pick(&[0, 1, 8, 9, small, near, near + 4, near - 4, near - 1, any])
}

#[test]
fn one_field_off() {
    let mut random = Random::new(202);
    let mut tally = Tally::new("checks with one field off");
    for form in [Form::File, Form::Slot] {
        for _ in 0..cases(200_000) {
            let draft = Draft::small(form, &mut random);
            let at = random.pick(&fields(&draft));
            let width = random.pick(&[1, 2, 4]);
            let value = edge_values(&mut random).to_le_bytes();
            let mut bytes = draft.bytes();
            bytes[at..at + width].copy_from_slice(&value[..width]);
            tally.count(compare(form, &bytes, &draft.inputs));
        }
    }
    let found = [
        "S4", "S5", "S6", "S7", "S8", "S9", "S10", "S14", "S16", "S18", "S19", "S21", "S22",
        "S23/14", ACCEPTED,
    ];
    tally.assert_seen(20, &found);
}

#[test]
fn cut_at_every_length() {
    let mut random = Random::new(203);
    let mut tally = Tally::new("checks of cut images");
    for form in [Form::File, Form::Slot] {
        for _ in 0..cases(150) {
            let draft = Draft::small(form, &mut random);
            let bytes = draft.bytes();
            for length in 0..=bytes.len().min(4_096) {
                tally.count(compare(form, &bytes[..length], &draft.inputs));
            }
        }
    }
    tally.assert_seen(100, &["S1", "S3", "S5", "S12", "S21", ACCEPTED]);
}

/// Larger images, so that the bytes of code outnumber those of the headers.
#[test]
fn one_byte_of_much_code() {
    let mut random = Random::new(204);
    let mut tally = Tally::new("checks with one byte of much code off");
    for form in [Form::File, Form::Slot] {
        for _ in 0..cases(400) {
            let length = 4 * (1 + random.up_to(50_000));
            let mut draft = Draft::with_code(form, |_| length, &mut random);
            let at = random.up_to(length - 1);
            draft.code[at] ^= 1 << random.up_to(7);
            tally.count(compare_draft(form, &draft));
        }
    }
    tally.assert_exactly(800, &["S23/14"]);
}
