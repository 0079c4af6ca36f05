//! How much is tried, and how often each kind of answer came. A test that never sees an answer
//! shows nothing about it, so the counts are asserted.

use crate::both::Way;
use crate::model::image::{Image, Refusal};
use std::collections::BTreeMap;
use std::fmt::Debug;

/// The number of cases: `short` of them, or twenty times as many in a long run.
pub fn cases(short: usize) -> usize {
    match std::env::var("THIMMOREL_LONG").as_deref() {
        Ok("1") => 20 * short,
        _ => short,
    }
}

/// Counts of answers, or of anything else.
pub struct Tally<K> {
    area: &'static str,
    counts: BTreeMap<K, u64>,
}

impl<K: Copy + Debug + Ord> Tally<K> {
    pub fn new(area: &'static str) -> Tally<K> {
        let counts = BTreeMap::new();
        Tally { area, counts }
    }

    pub fn count(&mut self, what: K) {
        *self.counts.entry(what).or_default() += 1;
    }

    fn of(&self, what: K) -> u64 {
        self.counts.get(&what).copied().unwrap_or(0)
    }

    /// Asserts that each of `wanted` came at least `least` times, and nothing else at all.
    pub fn assert_exactly(&self, least: u64, wanted: &[K]) {
        self.assert_seen(least, wanted);
        for (what, count) in &self.counts {
            assert!(
                wanted.contains(what),
                "{}: {what:?} came {count} times",
                self.area
            );
        }
    }

    /// Asserts that each of `wanted` came at least `least` times.
    pub fn assert_seen(&self, least: u64, wanted: &[K]) {
        let total: u64 = self.counts.values().sum();
        println!("{}: {total} cases: {:?}", self.area, self.counts);
        for what in wanted {
            let count = self.of(*what);
            assert!(count >= least, "{}: {what:?} came {count} times", self.area);
        }
    }
}

/// The rows of the S-table that bytes can lead to. S15 cannot fail once S4 holds. S23 has two
/// numbers.
pub const STEPS: [&str; 23] = [
    "S1", "S2", "S3", "S4", "S5", "S6", "S7", "S8", "S9", "S10", "S11", "S12", "S13", "S14", "S16",
    "S17", "S18", "S19", "S20", "S21", "S22", "S23/14", "S23/15",
];

pub const ACCEPTED: &str = "accepted";

/// The row that gave an answer about `length` bytes.
pub fn step(answer: &Result<Image, Refusal>, length: usize) -> &'static str {
    let Err(refusal) = answer else {
        return ACCEPTED;
    };
    match (refusal.number, refusal.part) {
        (1, 1) => "S1",
        (16, 0) => "S2",
        (2, 1) if length < 512 => "S3",
        (3, 1) => "S4",
        (2, 1) => "S5",
        (4, 1) => "S6",
        (5, 1) => "S7",
        (6, 1) => "S8",
        (7, 1) => "S9",
        (8, 1) => "S10",
        (9, 1) => "S11",
        (2, 2) => "S12",
        (10, 2) => "S13",
        (11, 2) => "S14",
        (12, 2) => "S16",
        (6, 2) => "S17",
        (7, 2) => "S18",
        (8, 2) => "S19",
        (9, 2) => "S20",
        (2, 3) => "S21",
        (13, 3) => "S22",
        (14, 3) => "S23/14",
        (15, 3) => "S23/15",
        _ => panic!("no row gives {refusal:?}"),
    }
}

/// Number and part, or 0 and 0 on success.
pub fn told<T>(answer: &Result<T, Refusal>) -> (u32, u32) {
    let refused = answer.as_ref().err();
    refused.map_or((0, 0), |refusal| (refusal.number, refusal.part))
}

/// The rows of a loader's steps. One of them has no name: there are fewer than 1,024 bytes.
pub const LOADER_STEPS: [&str; 13] = [
    "S1", "S2", "short", "S14", "S16", "S17", "S18", "S19", "S20", "S21", "S22", "S23/14", "S23/15",
];

/// The row that gave an answer about a loader.
pub fn loader_step(answer: &Result<Image, Refusal>) -> &'static str {
    let Err(refusal) = answer else {
        return ACCEPTED;
    };
    match (refusal.number, refusal.part, refusal.chunk) {
        (1, 2, 0) => "S1",
        (16, 0, 0) => "S2",
        (2, 2, 0) => "short",
        (11, 2, 0) => "S14",
        (12, 2, 0) => "S16",
        (6, 2, 0) => "S17",
        (7, 2, 0) => "S18",
        (8, 2, 0) => "S19",
        (9, 2, 0) => "S20",
        (2, 3, 0) => "S21",
        (13, 3, 0) => "S22",
        (14, 3, 1) => "S23/14",
        (15, 3, 2..=16) => "S23/15",
        _ => panic!("no row gives {refusal:?}"),
    }
}

/// The rows of the older model's steps, for the pair. No two have the same number and part, so these
/// are their names.
pub const PAIR_STEPS: [(u32, u32); 19] = [
    (16, 0),
    (1, 1),
    (2, 1),
    (12, 1),
    (6, 1),
    (8, 1),
    (9, 1),
    (10, 2),
    (2, 2),
    (11, 2),
    (12, 2),
    (6, 2),
    (7, 2),
    (8, 2),
    (9, 2),
    (2, 3),
    (13, 3),
    (14, 3),
    (15, 3),
];

/// What an installer's call answered: the call, the number and the part.
pub type Outcome = (&'static str, u32, u32);

/// Each call in both forms.
pub const CALLS: [&str; 8] = [
    "erase",
    "plan_erase",
    "fill",
    "plan_fill",
    "ask",
    "close",
    "plan_close",
    "confirm",
];

fn name(call: &'static str, way: Way) -> &'static str {
    match (way, call) {
        (Way::Plan, "erase") => "plan_erase",
        (Way::Plan, "fill") => "plan_fill",
        (Way::Plan, "close") => "plan_close",
        _ => call,
    }
}

pub fn outcome<T>(call: &'static str, way: Way, answer: &Result<T, u32>) -> Outcome {
    (name(call, way), *answer.as_ref().err().unwrap_or(&0), 0)
}

pub fn outcome_of_close(way: Way, answer: &Result<(), Refusal>) -> Outcome {
    let call = name("close", way);
    match answer {
        Ok(()) => (call, 0, 0),
        Err(refusal) => (call, refusal.number, refusal.part),
    }
}

/// Each call answered with this number.
pub fn each_call(number: u32) -> [Outcome; 8] {
    CALLS.map(|call| (call, number, 0))
}

/// The refusals of the check that a close can pass on: number and part.
const OF_CHECK: [(u32, u32); 22] = [
    (1, 1),
    (16, 0),
    (3, 1),
    (2, 1),
    (4, 1),
    (5, 1),
    (6, 1),
    (7, 1),
    (8, 1),
    (9, 1),
    (2, 2),
    (10, 2),
    (11, 2),
    (12, 2),
    (6, 2),
    (7, 2),
    (8, 2),
    (9, 2),
    (2, 3),
    (13, 3),
    (14, 3),
    (15, 3),
];

/// The outcomes that need no slot written behind the session's back.
pub fn outcomes() -> Vec<Outcome> {
    let closes = ["close", "plan_close"];
    let of_check = closes.map(|call| OF_CHECK.map(|(number, part)| (call, number, part)));
    [
        &each_call(0)[..],
        &each_call(19),
        &of_check[0],
        &of_check[1],
    ]
    .concat()
}

/// Those that a word written there leads to.
pub const NOT_ERASED: [Outcome; 4] = [
    ("fill", 23, 0),
    ("plan_fill", 23, 0),
    ("close", 23, 0),
    ("plan_close", 23, 0),
];

/// The one that a first word leads to that does not stand there.
pub const NOT_LANDED: [Outcome; 1] = [("confirm", 27, 0)];
