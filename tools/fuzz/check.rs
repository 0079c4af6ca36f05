//! Target `check`: an image with some faults, then a list of damages. The check of a file or of a
//! slot, the parts, the two digest questions, the places of the signatures and the trust reading are
//! compared.

use crate::archive::image as archive;
use crate::draft::{any_inputs, Draft};
use crate::faults::spoil;
use crate::input::Input;
use crate::model::image::{self as model, Form, Inputs};
use crate::model::writer::vendor_header;
use crate::tally::STEPS;

pub fn target(mut head: Input, mut list: Input) {
    let form = head.pick(&[Form::File, Form::Slot]);
    let mut draft = draft(form, &mut head);
    for _ in 0..head.pick(&[0, 0, 1, 2]) {
        spoil(head.up_to(STEPS.len() - 1), &mut draft, form, &mut head);
    }
    if head.one_in(8) {
        draft.inputs = any_inputs(&mut head);
    }

    let (mut bytes, mut length) = (draft.bytes(), draft.length());
    let places = places(&draft);
    while !list.has_ended() {
        damage(&mut bytes, &mut length, &places, &EDGES, &mut list);
    }
    compare_all(form, &bytes, length, &draft.inputs);
}

/// A well-formed image: mostly a small one, now and then one with the longest vendor header, or
/// with code that ends around the end of chunk 1 or 2.
fn draft(form: Form, head: &mut Input) -> Draft {
    if head.one_in(128) {
        return with_longest_header(Draft::small(form, head));
    }
    if head.one_in(1_024) {
        let end = 131_072 * head.pick(&[1, 2]) + head.pick(&[0, 4, 8]) - 4;
        return Draft::with_code(form, |v| end - 1_024 - v, head);
    }
    Draft::small(form, head)
}

/// With few bytes of code, the firmware header is the same for every v.
fn with_longest_header(mut draft: Draft) -> Draft {
    let string_end = 33 + draft.fields.keys.len() + draft.fields.string.len();
    let room = 65_536 - 65 - string_end.next_multiple_of(4);
    draft.fields.picture.resize(room, 0x33);
    draft.vendor = vendor_header(&draft.fields).expect("the fields are good");
    draft
}

/// Where the parts begin, and the fields that the steps read.
fn places(draft: &Draft) -> Vec<usize> {
    let v = draft.v();
    let vendor = [0, 32 + draft.fields.keys.len(), v - 65];
    let firmware = [0, 32, 544, 959, 1_024, 1_024 + draft.code.len()];
    [&vendor[..], &firmware.map(|at| v + at)].concat()
}

/// Numbers at which a step changes its answer.
const EDGES: [u32; 6] = [0, 512, 1_024, 65_536, 2_095_616, 2_097_152];

/// Sets one byte or a word, cuts the lent bytes, or lends more.
pub fn damage(
    bytes: &mut Vec<u8>,
    length: &mut usize,
    places: &[usize],
    edges: &[u32],
    list: &mut Input,
) {
    let kind = list.up_to(7);
    let at = list.pick(places) + list.up_to(255);
    match kind {
        0 => *length = at.min(bytes.len()),
        1 => {
            bytes.truncate(*length);
            bytes.resize(*length + at % 600, list.pick(&[255, 255, 0, 1]));
            *length = bytes.len();
        }
        2 => put(bytes, at, &list.word().to_le_bytes()),
        3 => {
            let by = i32::from(list.byte() as i8);
            let value = list.pick(edges).wrapping_add_signed(by);
            put(bytes, at, &value.to_le_bytes());
        }
        _ => put(bytes, at, &[list.byte()]),
    }
}

/// Writes what of the value stands within the bytes.
fn put(bytes: &mut [u8], at: usize, value: &[u8]) {
    for (byte, new) in bytes.iter_mut().skip(at).zip(value) {
        *byte = *new;
    }
}

/// The bytes are lent at an odd place. Those behind the lent ones are still there, so that a call
/// that reads on finds what it must not see.
pub fn compare_all(form: Form, bytes: &[u8], length: usize, inputs: &Inputs) {
    let memory = [&[0x5a; 5], bytes].concat();
    let before = memory.clone();
    let lent = &memory[5..][..length];
    compare_check(form, lent, inputs);
    assert_eq!(archive::vendor_digest(lent), model::vendor_digest(lent));
    assert_eq!(archive::firmware_digest(lent), model::firmware_digest(lent));
    let found = archive::vendor_signature(lent);
    assert_eq!(found, model::vendor_signature(lent));
    let found = archive::firmware_signature(lent);
    assert_eq!(found, model::firmware_signature(lent));
    assert_eq!(archive::trust(lent), model::trust_of(lent));
    assert!(memory == before, "a call wrote to the bytes it was lent");
}

/// The check, and the parts after it.
pub fn compare_check(form: Form, bytes: &[u8], inputs: &Inputs) {
    let answer = model::check(form, bytes, inputs);
    assert_eq!(archive::check(form, bytes, inputs), answer, "the check");
    let number = answer.map_or_else(|refusal| refusal.number, |_| 0);
    let parts = archive::parts(bytes, number);
    assert_eq!(parts, model::parts(bytes, &answer), "the parts");
}
