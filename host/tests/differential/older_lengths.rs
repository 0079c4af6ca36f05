//! The checks of the older model at the edges of lengths: of the code, of what is lent, and of the
//! chunks.

use crate::archive::older as archive;
use crate::common::random::Random;
use crate::faults::put;
use crate::model::image::Refusal;
use crate::model::older::{Headers, ROOM_IN_FIRST};
use crate::model::sha256::sha256;
use crate::older_compare::{compare, compare_draft, compare_questions, in_each, ACCEPTED};
use crate::older_draft::{OlderDraft, KINDS, LONGEST_CODE};
use crate::older_faults::{put_code_length, Row};
use crate::tally::{cases, Tally};

/// The code is there and its hashes are right, so that its length alone can be wrong.
#[test]
fn lengths_of_code() {
    let mut random = Random::new(1905);
    let small = [0, 2, 3, 4, 5, 6, 8, 60, 64, 68];
    let around_header = [1_020, 1_024, 1_025, 1_026, 1_027, 1_028];
    let around_longest = [2_095_868, 2_095_870, 2_095_872, 2_095_876];
    let lengths = [&small[..], &around_header, &around_longest].concat();
    for kind in KINDS {
        for &length in &lengths {
            let draft = OlderDraft::with_code(length, kind, &mut random);
            let is_good = length % 4 == 0 && (4..=2_095_872).contains(&length);
            let expected = match kind.0 {
                _ if is_good => ACCEPTED,
                Headers::V2 => (12, 2),
                Headers::Pair => (12, 1),
            };
            assert_eq!(compare_draft(&draft), expected, "{length} bytes of code");
        }
    }
}

/// Every code length of this list in the legacy header, with each in the V2 header.
#[test]
fn code_lengths_of_both_headers() {
    let mut random = Random::new(1906);
    let mut tally = Tally::new("older checks of two code lengths");
    let small = [0, 4, 64, 1_024, 1_028, 1_092, 2_048];
    let large = [1 << 20, 2_095_872, 2_096_896, 1 << 31];
    let around = |near: u32| [-4, -1, 0, 1, 2, 4].map(|by| near.wrapping_add_signed(by));
    let numbers = small.into_iter().chain(large).flat_map(around);
    let numbers: Vec<u32> = numbers.collect();
    for kind in [KINDS[2], KINDS[3]] {
        let mut draft = OlderDraft::with_code(64, kind, &mut random);
        draft.tail.clear();
        for legacy in &numbers {
            for v2 in &numbers {
                put(&mut draft.legacy, 4, *legacy);
                put(&mut draft.v2, 12, *v2);
                let legacy_is_good = legacy % 4 == 0 && (1_028..=2_096_896).contains(legacy);
                let expected = match (*legacy, *v2) {
                    _ if !legacy_is_good => (12, 1),
                    (legacy, v2) if legacy - 1_024 != v2 => (12, 2),
                    (_, 64) => ACCEPTED,
                    (_, v2) if v2 < 64 => (13, 3),
                    _ => (2, 3),
                };
                let row = compare_draft(&draft);
                assert_eq!(row, expected, "{legacy} and {v2}");
                tally.count(row);
            }
        }
    }
    tally.assert_exactly(2, &[(12, 1), (12, 2), (2, 3), (13, 3), ACCEPTED]);
}

/// Code lengths that both headers agree on, of code that is not there.
#[test]
fn code_lengths_without_code() {
    let mut random = Random::new(1907);
    for kind in KINDS {
        let good = [4_096, 129_788, 129_792, 129_796, 2_095_868, 2_095_872];
        let bad = [0, 1, 2, 3, 2_095_873, 2_095_874, 2_095_876, 2_096_128];
        let large = [1 << 31, u32::MAX - 1_023, u32::MAX - 3, u32::MAX];
        let refused = match kind.0 {
            Headers::V2 => (12, 2),
            Headers::Pair => (12, 1),
        };
        let all = good.map(|length| (length, (2, 3))).into_iter();
        for (length, row) in all.chain(bad.into_iter().chain(large).map(|length| (length, refused)))
        {
            let mut draft = OlderDraft::small(kind, &mut random);
            put_code_length(&mut draft, length);
            assert_eq!(compare_draft(&draft), row, "{length}");
        }
    }
}

/// The row of an image of so many bytes, of which only the first `length` are lent.
fn row_of_cut(headers: Headers, length: usize, whole: usize) -> Row {
    match (headers, length) {
        (Headers::V2, 0..4) => (10, 2),
        (Headers::V2, 4..1_024) => (2, 2),
        (Headers::Pair, 0..4) => (1, 1),
        (Headers::Pair, 4..256) => (2, 1),
        (Headers::Pair, 256..260) => (10, 2),
        (Headers::Pair, 260..1_280) => (2, 2),
        (_, length) if length < whole => (2, 3),
        _ => ACCEPTED,
    }
}

#[test]
fn cut_at_every_length() {
    let mut random = Random::new(1908);
    for kind in KINDS {
        for _ in 0..cases(5) {
            let draft = OlderDraft::with_code(284, kind, &mut random);
            let bytes = draft.bytes();
            let whole = bytes.len() - draft.tail.len();
            for length in 0..=bytes.len() {
                let lent = &bytes[..length];
                let row = compare(kind, lent, &draft.inputs);
                assert_eq!(row, row_of_cut(kind.0, length, whole), "{length} bytes");
                let [v2, pair, legacy] = compare_questions(lent);
                match kind.0 {
                    Headers::V2 => assert_eq!(v2 == ACCEPTED, length >= 1_024),
                    Headers::Pair => {
                        assert_eq!(pair == ACCEPTED, length >= 1_280);
                        assert_eq!(legacy == ACCEPTED, length >= whole);
                    }
                }
            }
        }
    }
}

/// Lengths of code that end around the ends of chunks 1, 2, 15 and 16.
fn chunk_edges() -> Vec<usize> {
    let ends = [0, 1, 14, 15].map(|more| ROOM_IN_FIRST + 131_072 * more);
    let around = ends.iter().flat_map(|end| [end - 4, *end, end + 4]);
    around.filter(|length| *length <= LONGEST_CODE).collect()
}

/// The answer where hash `k` is off.
fn wrong_hash(k: usize, code: usize) -> Refusal {
    let before = if k == 1 {
        0
    } else {
        ROOM_IN_FIRST + 131_072 * (k - 2)
    };
    Refusal {
        number: if before < code { 14 } else { 15 },
        part: 3,
        chunk: k as u32,
    }
}

/// The image as it is, then with a byte of the code off near the ends of the code and of chunk 1,
/// then with a byte of each hash off, and of a later one too.
#[test]
fn edges_of_chunks() {
    let mut random = Random::new(1909);
    let mut tally = Tally::new("older checks at the edges of chunks");
    for kind in KINDS {
        for length in chunk_edges() {
            let draft = OlderDraft::with_code(length, kind, &mut random);
            tally.count((kind, compare_draft(&draft)));
            let (room, last) = (ROOM_IN_FIRST, length - 1);
            for at in [0, room - 5, (room - 1).min(last), room.min(last), last] {
                let mut draft = draft.clone();
                draft.code[at] ^= 0x80;
                let answer = archive::check(kind.0, kind.1, &draft.bytes(), &draft.inputs);
                let k = if at < room {
                    1
                } else {
                    2 + (at - room) / 131_072
                };
                assert_eq!(answer, Err(wrong_hash(k, length)), "{at} of {length}");
                tally.count((kind, compare_draft(&draft)));
            }
            for k in 1..=16 {
                let mut draft = draft.clone();
                draft.v2[32 * k + random.up_to(31)] ^= 0x01;
                if k < 16 {
                    let later = k + 1 + random.up_to(15 - k);
                    draft.v2[32 * later] ^= 0x80;
                }
                let answer = archive::check(kind.0, kind.1, &draft.bytes(), &draft.inputs);
                assert_eq!(answer, Err(wrong_hash(k, length)), "{k}, {length}");
                tally.count((kind, compare_draft(&draft)));
            }
        }
    }
    tally.assert_exactly(10, &in_each(&[ACCEPTED, (14, 3), (15, 3)]));
}

/// Chunk 1 is as short behind a V2 header by itself as behind the pair: more code in it does not
/// count as chunk 1.
#[test]
fn one_room_for_both_forms() {
    let mut random = Random::new(1910);
    for kind in KINDS {
        for room in [129_792, 129_796, 130_048, 131_072] {
            let mut draft = OlderDraft::with_code(131_076, kind, &mut random);
            let (first, second) = draft.code.split_at(room);
            draft.v2[32..64].copy_from_slice(&sha256(first));
            draft.v2[64..96].copy_from_slice(&sha256(second));
            let expected = if room == 129_792 { ACCEPTED } else { (14, 3) };
            assert_eq!(compare_draft(&draft), expected, "{room} bytes");
        }
    }
}
