//! The checks of the older model at the edges of the key sheet, of the indexes and of the verdicts.

use crate::common::random::Random;
use crate::model::older::Headers;
use crate::older_compare::{compare, compare_draft, in_each, ACCEPTED};
use crate::older_draft::{OlderDraft, KINDS, LEGACY_INDEXES, V2_INDEXES};
use crate::tally::Tally;

/// Sets the indexes of each header that is there.
fn put_indexes(draft: &mut OlderDraft, legacy: [u8; 3], v2: [u8; 3]) {
    if !draft.legacy.is_empty() {
        draft.legacy[LEGACY_INDEXES..][..3].copy_from_slice(&legacy);
    }
    draft.v2[V2_INDEXES..][..3].copy_from_slice(&v2);
}

/// A sheet has 3 to 255 keys. Any other is refused before all else, even where there are no bytes.
#[test]
fn sheets() {
    let mut random = Random::new(1901);
    let small = [0, 1, 2, 3, 4, 128, 254, 255, 256, 257, 258, 259, 511];
    let large = [0xff00, 1 << 24 | 3, 1 << 31 | 3, u32::MAX];
    for kind in KINDS {
        let mut draft = OlderDraft::small(kind, &mut random);
        put_indexes(&mut draft, [3, 2, 1], [1, 2, 3]);
        for keys in small.into_iter().chain(large) {
            draft.inputs.keys = keys;
            let is_good = (3..=255).contains(&keys);
            let expected = if is_good { ACCEPTED } else { (16, 0) };
            assert_eq!(compare_draft(&draft), expected, "{keys} keys");
            let missing = match kind.0 {
                Headers::V2 => (10, 2),
                Headers::Pair => (1, 1),
            };
            let expected = if is_good { missing } else { (16, 0) };
            assert_eq!(compare(kind, &[], &draft.inputs), expected, "{keys} keys");
        }
    }
}

/// Three of these numbers, in every way.
fn triples(numbers: &[u8]) -> impl Iterator<Item = [u8; 3]> + '_ {
    let each = move || numbers.iter().copied();
    each().flat_map(move |i| each().flat_map(move |j| each().map(move |k| [i, j, k])))
}

/// Indexes around 0 and around the number of keys, in every place, with those of the other header
/// good.
#[test]
fn indexes() {
    let mut random = Random::new(1902);
    let mut tally = Tally::new("older checks of indexes");
    for kind in KINDS {
        for keys in [3, 4, 100, 254, 255_u8] {
            let mut draft = OlderDraft::small(kind, &mut random);
            draft.inputs.keys = keys.into();
            let numbers = [0, 1, 2, 3, keys - 1, keys, keys.saturating_add(1), 255];
            for indexes in triples(&numbers) {
                let [i, j, k] = indexes;
                let in_sheet = indexes.iter().all(|index| (1..=keys).contains(index));
                let is_good = in_sheet && i != j && i != k && j != k;
                let expected = |row| if is_good { ACCEPTED } else { row };

                put_indexes(&mut draft, [1, 3, 2], indexes);
                let row = compare_draft(&draft);
                assert_eq!(row, expected((8, 2)), "{indexes:?} of {keys} keys");
                tally.count((kind, row));
                if kind.0 == Headers::Pair {
                    put_indexes(&mut draft, indexes, [2, 1, 3]);
                    let row = compare_draft(&draft);
                    assert_eq!(row, expected((8, 1)), "{indexes:?} of {keys} keys");
                }
            }
        }
    }
    tally.assert_exactly(50, &in_each(&[(8, 2), ACCEPTED]));
}

/// Both headers may be signed by the same keys.
#[test]
fn indexes_of_both_headers() {
    let mut random = Random::new(1903);
    for kind in KINDS {
        for (legacy, v2) in [([1, 2, 3], [1, 2, 3]), ([1, 2, 3], [3, 1, 2])] {
            let mut draft = OlderDraft::small(kind, &mut random);
            put_indexes(&mut draft, legacy, v2);
            assert_eq!(compare_draft(&draft), ACCEPTED);
        }
    }
}

/// Each verdict alone: it is yes if its word is 1, and no other word is. Those on a legacy header
/// that is not there are not looked at.
#[test]
fn verdicts() {
    let mut random = Random::new(1904);
    let mut tally = Tally::new("older checks with any word as a verdict");
    for kind in KINDS {
        for bit in 0..32 {
            let any = random.word();
            for word in [0, 1, 2, 1 << bit, 1 | 1 << bit, u32::MAX, any] {
                for i in 0..3 {
                    let mut draft = OlderDraft::small(kind, &mut random);
                    draft.inputs.v2[i] = word;
                    let row = compare_draft(&draft);
                    let expected = if word == 1 { ACCEPTED } else { (9, 2) };
                    assert_eq!(row, expected, "{word:#x} at {i}");
                    tally.count((kind, row));

                    let mut draft = OlderDraft::small(kind, &mut random);
                    draft.inputs.legacy[i] = word;
                    let is_good = word == 1 || kind.0 == Headers::V2;
                    let expected = if is_good { ACCEPTED } else { (9, 1) };
                    assert_eq!(compare_draft(&draft), expected, "{word:#x} at {i}");
                }
            }
        }
    }
    tally.assert_exactly(90, &in_each(&[(9, 2), ACCEPTED]));
}
