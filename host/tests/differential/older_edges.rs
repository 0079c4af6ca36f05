//! The checks of the older model at further edges: the bytes after the code, expiries, the bytes that
//! must be zero, where the code is, and images of another kind.

use crate::archive::image as image_archive;
use crate::archive::loader as loader_archive;
use crate::archive::older as archive;
use crate::area::{AreaDraft, AREAS};
use crate::common::random::Random;
use crate::draft::{expiries_and_times, Draft};
use crate::faults::put;
use crate::model::image::{refusal, Form};
use crate::model::older::Headers;
use crate::older_compare::{compare, compare_draft, in_each, ACCEPTED};
use crate::older_draft::{OlderDraft, KINDS};
use crate::older_faults::put_code_length;
use crate::tails::{self, with_tails};
use crate::tally::{cases, Tally};

/// In a slot they are erased. A file has none.
#[test]
fn tails_of_many_lengths() {
    let mut random = Random::new(1911);
    let mut tally = Tally::new("older checks of tails");
    for kind in KINDS {
        for length in tails::lengths() {
            let mut draft = OlderDraft::small(kind, &mut random);
            draft.tail.clear();
            with_tails(
                &draft.bytes(),
                255,
                length,
                &mut random,
                |lent, is_erased| {
                    let is_good = match kind.1 {
                        Form::File => length == 0,
                        Form::Slot => is_erased,
                    };
                    let row = compare(kind, lent, &draft.inputs);
                    let expected = if is_good { ACCEPTED } else { (13, 3) };
                    assert_eq!(row, expected, "a tail of {length} bytes");
                    tally.count((kind, row));
                },
            );
        }
    }
    tally.assert_exactly(2, &in_each(&[(13, 3), ACCEPTED]));
}

/// A tail of a few mebibytes with one byte off, first or last or between.
#[test]
fn long_tails() {
    let mut random = Random::new(1912);
    for kind in [KINDS[1], KINDS[3]] {
        let mut draft = OlderDraft::small(kind, &mut random);
        let length = 3_000_000 + random.up_to(100);
        draft.tail = vec![255; length];
        assert_eq!(compare_draft(&draft), ACCEPTED);
        for at in [0, random.up_to(length - 1), length - 1] {
            draft.tail[at] = 0;
            assert_eq!(compare_draft(&draft), (13, 3));
            draft.tail[at] = 255;
        }
    }
}

#[test]
fn expiries() {
    let mut random = Random::new(1913);
    for kind in KINDS {
        let mut draft = OlderDraft::small(kind, &mut random);
        for (expiry, time, is_good) in expiries_and_times() {
            put(&mut draft.v2, 8, expiry);
            draft.inputs.time = time;
            let expected = if is_good { ACCEPTED } else { (7, 2) };
            assert_eq!(
                compare_draft(&draft),
                expected,
                "{time} with expiry {expiry}"
            );
        }
    }
}

/// Every byte that must be zero, and every byte beside them that need not.
#[test]
fn zeros() {
    let mut random = Random::new(1914);
    for kind in KINDS {
        let mut draft = OlderDraft::small(kind, &mut random);
        for at in (16..32).chain(0x220..0x2e0).chain(0x2e3..1_024) {
            draft.v2[at] ^= 0x40;
            let is_good = at < 24 || (0x220..0x2e3).contains(&at);
            let expected = if is_good { ACCEPTED } else { (6, 2) };
            assert_eq!(compare_draft(&draft), expected, "{at}");
            draft.v2[at] ^= 0x40;
        }
        for at in 11..draft.legacy.len() {
            draft.legacy[at] ^= 0x40;
            let expected = if at >= 64 { ACCEPTED } else { (6, 1) };
            assert_eq!(compare_draft(&draft), expected, "{at}");
            draft.legacy[at] ^= 0x40;
        }
    }
}

/// Bytes that no check accepted have no code, but a caller may ask for it as if one had.
#[test]
fn no_code_reaches_past_the_bytes() {
    let mut random = Random::new(1915);
    let mut cut = 0;
    for _ in 0..cases(20_000) {
        let (headers, _) = random.pick(&KINDS);
        let mut draft = OlderDraft::small(random.pick(&KINDS), &mut random);
        let any = random.word();
        put_code_length(&mut draft, random.pick(&[4, 64, 2_095_872, u32::MAX, any]));
        let bytes = draft.bytes();
        let bytes = &bytes[..random.up_to(bytes.len())];
        let code = archive::code(headers, bytes, 0);
        assert!(bytes.get(code.clone()).is_some(), "{code:?}");
        cut += usize::from(code.end == bytes.len());
        let number = random.word() | 1 << random.up_to(31);
        assert_eq!(archive::code(headers, bytes, number), 0..0);
    }
    assert!(cut > 1_000, "{cut} were cut");
}

/// Neither form is the other, and firmware and loaders are neither.
#[test]
fn images_of_another_kind() {
    let mut random = Random::new(1916);
    for form in [Form::File, Form::Slot] {
        let v2 = OlderDraft::small((Headers::V2, form), &mut random);
        let pair = OlderDraft::small((Headers::Pair, form), &mut random);
        let firmware = Draft::small(form, &mut random);
        let loader = AreaDraft::small(AREAS[0], &mut random);
        let as_v2 = |bytes: &[u8]| compare((Headers::V2, form), bytes, &v2.inputs);
        let as_pair = |bytes: &[u8]| compare((Headers::Pair, form), bytes, &pair.inputs);

        assert_eq!(as_v2(&pair.bytes()), (10, 2));
        assert_eq!(as_pair(&v2.bytes()), (1, 1));
        let without_v2 = [&pair.legacy[..], &pair.code, &[0; 1_024]].concat();
        assert_eq!(as_pair(&without_v2), (10, 2));
        for bytes in [firmware.bytes(), loader.bytes()] {
            assert_eq!(as_v2(&bytes), (10, 2));
            assert_eq!(as_pair(&bytes), (1, 1));
        }
        // The firmware header's sigmask is among the bytes that must be zero in a V2 header.
        let header_and_code = firmware.bytes().split_off(firmware.v());
        assert_eq!(as_v2(&header_and_code), (6, 2));

        for bytes in [v2.bytes(), pair.bytes()] {
            let answer = image_archive::check(form, &bytes, &firmware.inputs);
            assert_eq!(answer, Err(refusal(1, 1)));
            let answer = loader_archive::check(AREAS[0], &bytes, &loader.inputs);
            assert_eq!(answer, Err(refusal(1, 2)));
        }
    }
}
