//! The two digest questions with the places of the signatures, the parts of a checked image, and
//! the trust reading.

use crate::archive::image as archive;
use crate::common::random::Random;
use crate::draft::Draft;
use crate::faults::faulty_draft;
use crate::model::image::{self as model, Form, Parts};
use crate::tally::{cases, told, Tally};

fn draft(random: &mut Random) -> Draft {
    let form = random.pick(&[Form::File, Form::Slot]);
    faulty_draft(2, form, random)
}

#[test]
fn digests_to_sign() {
    let mut random = Random::new(301);
    let mut vendor_tally = Tally::new("vendor digest questions");
    let mut firmware_tally = Tally::new("firmware digest questions");
    for _ in 0..cases(300_000) {
        let draft = draft(&mut random);
        let bytes = &draft.bytes()[..draft.length()];

        let answer = archive::vendor_digest(bytes);
        assert_eq!(answer, model::vendor_digest(bytes));
        let signature = archive::vendor_signature(bytes);
        assert_eq!(signature, model::vendor_signature(bytes));
        vendor_tally.count(told(&answer));

        let answer = archive::firmware_digest(bytes);
        assert_eq!(answer, model::firmware_digest(bytes));
        let signature = archive::firmware_signature(bytes);
        assert_eq!(signature, model::firmware_signature(bytes));
        firmware_tally.count(told(&answer));
    }
    let vendor = [(0, 0), (1, 1), (2, 1), (3, 1), (4, 1), (5, 1), (6, 1)];
    let firmware = [(2, 2), (10, 2), (11, 2), (12, 2), (6, 2)];
    vendor_tally.assert_exactly(1_000, &vendor);
    firmware_tally.assert_exactly(1_000, &[&vendor[..], &firmware].concat());
}

/// A question asks nothing of time, policy and verdicts, and looks at nothing behind the headers:
/// an image cut after its headers has the same digests.
#[test]
fn digests_need_no_code() {
    let mut random = Random::new(302);
    for _ in 0..cases(5_000) {
        let draft = Draft::small(Form::File, &mut random);
        let bytes = draft.bytes();
        let (vendor, headers) = (&bytes[..draft.v()], &bytes[..draft.v() + 1_024]);
        assert_eq!(archive::vendor_digest(vendor), model::vendor_digest(&bytes));
        assert_eq!(
            archive::firmware_digest(headers),
            model::firmware_digest(&bytes)
        );
        assert!(archive::firmware_digest(headers).is_ok());
    }
}

/// What the places hold is what the writers were given.
#[test]
fn signatures_that_were_written() {
    let mut random = Random::new(307);
    for _ in 0..cases(5_000) {
        let draft = Draft::small(Form::File, &mut random);
        let bytes = draft.bytes();
        let found = archive::vendor_signature(&bytes);
        assert_eq!(bytes[found.sigmask], [draft.fields.sigmask as u8]);
        assert_eq!(bytes[found.sig], draft.fields.sig);
        assert_eq!((found.keys, found.m, found.n), (0..0, 0, 0));

        let found = archive::firmware_signature(&bytes);
        assert_eq!(bytes[found.sigmask], draft.firmware[959..960]);
        assert_eq!(bytes[found.sig], draft.firmware[960..]);
        assert_eq!(bytes[found.keys], draft.fields.keys);
        assert_eq!((found.m, found.n), (draft.fields.m, draft.fields.n));
    }
}

#[test]
fn parts_of_checked_images() {
    let mut random = Random::new(303);
    let mut tally = Tally::new("parts");
    for _ in 0..cases(200_000) {
        let draft = draft(&mut random);
        let bytes = &draft.bytes()[..draft.length()];
        let answer = model::check(Form::File, bytes, &draft.inputs);
        let number = answer.map_or_else(|refusal| refusal.number, |_| 0);
        let parts = archive::parts(bytes, number);
        assert_eq!(parts, model::parts(bytes, &answer));
        tally.count(number);
    }
    tally.assert_seen(
        1_000,
        &[0, 1, 2, 3, 4, 5, 6, 7, 8, 9, 10, 11, 12, 13, 14, 15, 16],
    );
}

#[test]
fn no_parts_after_a_refusal() {
    let mut random = Random::new(304);
    for _ in 0..cases(100_000) {
        let length = random.up_to(700);
        let bytes = random.bytes(length);
        let number = random.word() | (1 << random.up_to(31));
        assert_eq!(archive::parts(&bytes, number), Parts::default());
    }
}

/// Bytes that no check accepted have no parts, but a caller may ask for them as if one had.
#[test]
fn no_part_reaches_past_the_bytes() {
    let mut random = Random::new(306);
    let mut cut = 0;
    for _ in 0..cases(100_000) {
        let draft = draft(&mut random);
        let length = random.up_to(draft.length());
        let bytes = &draft.bytes()[..length];
        let parts = archive::parts(bytes, 0);
        for part in [parts.string, parts.picture, parts.code] {
            assert!(
                bytes.get(part.clone()).is_some(),
                "{part:?} of {length} bytes"
            );
            cut += usize::from(part.end == length);
        }
    }
    assert!(cut > 1_000, "{cut} parts were cut");
}

#[test]
fn every_vtrust() {
    let mut header = Draft::small(Form::File, &mut Random::new(305)).vendor;
    for vtrust in 0..=u16::MAX {
        header[16..18].copy_from_slice(&vtrust.to_le_bytes());
        assert_eq!(
            archive::trust(&header),
            model::trust(vtrust),
            "{vtrust:#06x}"
        );
    }
}

#[test]
fn trust_of_any_bytes() {
    let mut random = Random::new(306);
    for _ in 0..cases(100_000) {
        let length = random.up_to(20);
        let bytes = random.bytes(length);
        assert_eq!(archive::trust(&bytes), model::trust_of(&bytes), "{bytes:?}");
    }
}
