//! The four checks of the older model and the digest questions: random bytes, well-formed images,
//! every row of the steps hit by a fault of its own, and faults in pairs.

use crate::archive::older as archive;
use crate::common::random::Random;
use crate::model::image::{refusal, Refusal};
use crate::model::older::Headers;
use crate::older_compare::{compare, compare_draft, compare_questions, in_each, in_one, ACCEPTED};
use crate::older_draft::{any_older_inputs, Kind, OlderDraft, KINDS, LEGACY_INDEXES, V2_INDEXES};
use crate::older_faults::{faulty_draft, rows, spoil, Row};
use crate::tally::{cases, Tally};

/// The rows of each of the four checks, but for the last ones.
fn all_rows_but(last: usize) -> Vec<(Kind, Row)> {
    let of_one = |kind: Kind| {
        let rows = rows(kind.0);
        in_one(kind, &rows[..rows.len() - last])
    };
    KINDS.map(of_one).concat()
}

/// Random bytes, of which most are given some of the fields that let a check go on.
fn plausible(headers: Headers, random: &mut Random) -> Vec<u8> {
    let length = random.up_to(2_400);
    let mut bytes = random.bytes(length);
    let codelen = random.pick(&[0, 3, 4, 100, 256, 2_095_872, 2_095_876]);
    if headers == Headers::Pair && bytes.len() >= 64 && !random.one_in(4) {
        bytes[..4].copy_from_slice(b"TRZR");
        let codelen: u32 = codelen + 1_024 + random.pick(&[0, 0, 0, 4]);
        bytes[4..8].copy_from_slice(&codelen.to_le_bytes());
        bytes[8..11].copy_from_slice(&random.pick(&[[1, 2, 3], [3, 2, 1], [2, 1, 2]]));
        bytes[11..64].fill(random.pick(&[0, 0, 0, 1]));
    }
    let Some(v2) = bytes.get_mut(headers.v2()..) else {
        return bytes;
    };
    if v2.len() >= 4 && !random.one_in(4) {
        v2[..4].copy_from_slice(b"TRZF");
    }
    if v2.len() >= 1_024 && !random.one_in(4) {
        v2[4..8].copy_from_slice(&1_024_u32.to_le_bytes());
        v2[8..12].fill(random.pick(&[0, 1, 255]));
        v2[12..16].copy_from_slice(&codelen.to_le_bytes());
        if !random.one_in(4) {
            v2[24..32].fill(0);
            v2[V2_INDEXES + 3..1_024].fill(0);
        }
        let indexes = random.pick(&[[1, 2, 3], [2, 3, 1], [1, 1, 2]]);
        v2[V2_INDEXES..V2_INDEXES + 3].copy_from_slice(&indexes);
    }
    bytes
}

#[test]
fn random_bytes() {
    let mut random = Random::new(1701);
    let mut tally = Tally::new("older checks of random bytes");
    for kind in KINDS {
        for _ in 0..cases(60_000) {
            let inputs = any_older_inputs(&mut random);
            let bytes = plausible(kind.0, &mut random);
            tally.count((kind, compare(kind, &bytes, &inputs)));
            compare_questions(&bytes);
        }
    }
    tally.assert_seen(20, &all_rows_but(2));
}

#[test]
fn well_formed_images() {
    let mut random = Random::new(1702);
    let mut tally = Tally::new("checks of well-formed older images");
    for kind in KINDS {
        for _ in 0..cases(10_000) {
            let draft = OlderDraft::small(kind, &mut random);
            tally.count((kind, compare_draft(&draft)));
        }
    }
    tally.assert_exactly(10_000, &in_each(&[ACCEPTED]));
}

/// Each fault alone is found by its own row, in both forms, as a file and in a slot.
#[test]
fn each_fault_alone() {
    let mut random = Random::new(1703);
    let mut tally = Tally::new("checks of older images with one fault");
    for kind in KINDS {
        for row in rows(kind.0) {
            for _ in 0..cases(1_000) {
                let mut draft = OlderDraft::small(kind, &mut random);
                spoil(row, &mut draft, &mut random);
                let found = compare_draft(&draft);
                assert_eq!(found, row, "{draft:?}");
                tally.count((kind, found));
            }
        }
    }
    tally.assert_exactly(1_000, &all_rows_but(0));
}

/// The order of the rows: of two faults, the one whose row is earlier answers. It is put in last,
/// since some faults are in the same field.
#[test]
fn the_earlier_of_two_rows_answers() {
    let mut random = Random::new(1704);
    let mut tally = Tally::new("checks of older images with two faults");
    for kind in KINDS {
        let rows = rows(kind.0);
        for (i, later) in rows.iter().enumerate() {
            for earlier in &rows[..i] {
                for _ in 0..cases(60) {
                    let mut draft = OlderDraft::small(kind, &mut random);
                    spoil(*later, &mut draft, &mut random);
                    spoil(*earlier, &mut draft, &mut random);
                    let found = compare_draft(&draft);
                    assert_eq!(found, *earlier, "before {later:?}: {draft:?}");
                    tally.count((kind, found));
                }
            }
        }
    }
    tally.assert_exactly(60, &all_rows_but(1));
}

/// Three faults, put in in any order.
#[test]
fn three_faults() {
    let mut random = Random::new(1705);
    let mut tally = Tally::new("checks of older images with three faults");
    for kind in KINDS {
        for _ in 0..cases(40_000) {
            let mut draft = OlderDraft::small(kind, &mut random);
            for _ in 0..3 {
                spoil(random.pick(&rows(kind.0)), &mut draft, &mut random);
            }
            tally.count((kind, compare_draft(&draft)));
        }
    }
    // The last row answers only where all three faults are its own: for the pair about once in
    // 6,900 cases.
    tally.assert_seen(1, &all_rows_but(0));
}

/// The rows of the steps through the zero bytes of each header.
const LEGACY_SHAPE: [Row; 4] = [(1, 1), (2, 1), (12, 1), (6, 1)];
const V2_SHAPE: [Row; 5] = [(10, 2), (2, 2), (11, 2), (12, 2), (6, 2)];

#[test]
fn digests_to_sign() {
    let mut random = Random::new(1706);
    let mut of_v2 = Tally::new("digest questions of a V2 header");
    let mut of_pair = Tally::new("digest questions of the V2 header in a pair");
    let mut of_legacy = Tally::new("digest questions of a legacy header");
    for _ in 0..cases(60_000) {
        let draft = faulty_draft(2, random.pick(&KINDS), &mut random);
        let bytes = &draft.bytes()[..draft.length()];
        let [v2, pair, legacy] = compare_questions(bytes);
        match draft.kind.0 {
            Headers::V2 => of_v2.count(v2),
            Headers::Pair => {
                of_pair.count(pair);
                of_legacy.count(legacy);
            }
        }
    }
    let accepted = [ACCEPTED];
    of_v2.assert_exactly(100, &[&accepted[..], &V2_SHAPE].concat());
    let both = [&accepted[..], &LEGACY_SHAPE, &V2_SHAPE].concat();
    of_pair.assert_exactly(100, &both);
    let legacy = [&accepted[..], &LEGACY_SHAPE, &[(2, 3)]].concat();
    of_legacy.assert_exactly(100, &legacy);
}

/// Each row alone: a question is refused exactly by those that it asks for, and no key sheet, time,
/// index or verdict is among them.
#[test]
fn what_a_question_asks() {
    let mut random = Random::new(1707);
    for kind in KINDS {
        for row in rows(kind.0) {
            for _ in 0..cases(100) {
                let mut draft = OlderDraft::small(kind, &mut random);
                spoil(row, &mut draft, &mut random);
                let bytes = &draft.bytes()[..draft.length()];
                let [v2, pair, legacy] = compare_questions(bytes);
                let if_asked = |asked: &[Row]| match asked.contains(&row) {
                    true => row,
                    false => ACCEPTED,
                };
                if kind.0 == Headers::V2 {
                    assert_eq!(v2, if_asked(&V2_SHAPE));
                    continue;
                }
                assert_eq!(pair, if_asked(&[&LEGACY_SHAPE[..], &V2_SHAPE].concat()));
                // What is cut off behind the legacy header is missing in what its signatures sign.
                let signed =
                    256 + u32::from_le_bytes([4, 5, 6, 7].map(|i| draft.legacy[i])) as usize;
                match LEGACY_SHAPE.contains(&row) {
                    true => assert_eq!(legacy, row),
                    false if bytes.len() < signed => assert_eq!(legacy, (2, 3)),
                    false => assert_eq!(legacy, ACCEPTED, "{row:?}"),
                }
            }
        }
    }
}

/// The digests of a pair: that of its V2 header, and that of its legacy header.
fn digests(pair: &[u8]) -> [Result<[u8; 32], Refusal>; 2] {
    [
        archive::v2_digest(Headers::Pair, pair),
        archive::legacy_digest(pair),
    ]
}

/// Signatures and indexes of the V2 header are no part of what its signatures sign, but of what
/// those of the legacy header sign. Every other byte of the V2 header is a part of both, and the
/// signatures and indexes of the legacy header are a part of neither.
#[test]
fn what_a_digest_is_over() {
    let mut random = Random::new(1708);
    for kind in [KINDS[2], KINDS[3]] {
        for _ in 0..cases(2) {
            let mut draft = OlderDraft::small(kind, &mut random);
            draft.tail.clear();
            let mut bytes = draft.bytes();
            let [v2, legacy] = digests(&bytes);
            assert!(v2.is_ok() && legacy.is_ok());
            for at in (LEGACY_INDEXES..LEGACY_INDEXES + 3).chain(64..bytes.len()) {
                bytes[at] ^= 0x81;
                let [other_v2, other_legacy] = digests(&bytes);
                assert_eq!(other_legacy == legacy, at < 256, "{at}");
                let is_signed = matches!(at.wrapping_sub(256), 0..0x220 | 0x2e3..1_024);
                assert_eq!(other_v2 == v2, !is_signed, "{at}");
                if other_v2.is_ok() {
                    let alone = archive::v2_digest(Headers::V2, &bytes[256..]);
                    assert_eq!(alone, other_v2, "{at}");
                }
                bytes[at] ^= 0x81;
            }
        }
    }
}

/// A question asks for nothing behind what is signed, and what stands there does not matter.
#[test]
fn digests_need_nothing_more() {
    let mut random = Random::new(1709);
    for _ in 0..cases(1_000) {
        let mut draft = OlderDraft::small(KINDS[2], &mut random);
        let [v2, legacy] = digests(&draft.bytes());
        draft.tail = random.bytes(9);
        assert_eq!(digests(&draft.bytes()), [v2, legacy]);
        let headers = [&draft.legacy[..], &draft.v2].concat();
        assert_eq!(digests(&headers), [v2, Err(refusal(2, 3))]);
        assert_eq!(archive::v2_digest(Headers::V2, &draft.v2), v2);
        draft.code.fill(0);
        let [other_v2, other_legacy] = digests(&draft.bytes());
        assert_eq!(other_v2, v2);
        assert_ne!(other_legacy, legacy);
    }
}
