//! Begin with any lengths, then single calls on records that no session may have made: words at
//! random, records that a session reaches, and those with one number off.

use crate::both::{compare_begin, Both, Way, AFTER, WAYS};
use crate::common::random::Random;
use crate::moment::Moment;
use crate::tally::{
    cases, each_call, outcome, outcome_of_close, outcomes, Outcome, Tally, NOT_ERASED, NOT_LANDED,
};

#[test]
fn begins() {
    let slot = vec![0; 2_101_248];
    let mut tally = Tally::new("begins");
    for slot_length in [
        0, 1, 1_540, 4_095, 4_096, 4_097, 6_144, 8_192, 65_536, 2_093_056, 2_097_148, 2_097_152,
        2_101_248,
    ] {
        let above = 1 << 32;
        for file_length in [
            0,
            4,
            1_536,
            1_539,
            1_540,
            1_541,
            1_542,
            1_543,
            1_544,
            4_092,
            4_096,
            4_100,
            8_192,
            65_536,
            65_540,
            2_097_148,
            2_097_152,
            2_097_156,
            above,
            above + 1_540,
            usize::MAX - 3,
            usize::MAX,
        ] {
            let (refused, _) = compare_begin(&slot[..slot_length], file_length);
            tally.count(refused);
        }
    }
    tally.assert_exactly(20, &[None, Some(18), Some(22)]);
}

/// Each call once, each on the record and the slot of this moment.
fn count_each_call(moment: &Moment, random: &mut Random, tally: &mut Tally<Outcome>) {
    let length = moment.slot.len();
    let lent = match random.one_in(8) {
        true => random.pick(&[0, length - 1, length - 4_096, length + AFTER]),
        false => length,
    };
    let session = || {
        let mut both = Both::with(moment.words, &moment.slot);
        both.lend(lent);
        both
    };
    let piece_length = random.up_to(6);
    let piece = &moment.next[..piece_length.min(moment.next.len())];
    for way in WAYS {
        tally.count(outcome("erase", way, &session().erase(way)));
        tally.count(outcome("fill", way, &session().fill(way, piece)));
        let answer = session().close(way, &moment.inputs);
        tally.count(outcome_of_close(way, &answer));
    }
    tally.count(outcome("ask", Way::Memory, &session().ask()));
    tally.count(outcome("confirm", Way::Memory, &session().confirm()));
}

#[test]
fn words_at_random() {
    let mut random = Random::new(501);
    let mut tally = Tally::new("calls on random words");
    for _ in 0..cases(100_000) {
        let moment = Moment::impossible(&mut random);
        count_each_call(&moment, &mut random, &mut tally);
    }
    tally.assert_seen(1_000, &each_call(19));
}

#[test]
fn records_that_a_session_reaches() {
    let mut random = Random::new(502);
    let mut tally = Tally::new("calls on live records");
    for _ in 0..cases(100_000) {
        let moment = Moment::live(&mut random);
        count_each_call(&moment, &mut random, &mut tally);
    }
    tally.assert_exactly(50, &[&outcomes()[..], &NOT_LANDED].concat());
}

#[test]
fn records_with_one_number_off() {
    let mut random = Random::new(503);
    let mut tally = Tally::new("calls on records with one number off");
    for _ in 0..cases(150_000) {
        let mut moment = Moment::live(&mut random);
        let any = random.word();
        let by = random.pick(&[1, 2, 4, 4_096, 0x8000_0000, any]);
        let word = &mut moment.words[random.up_to(7)];
        *word = match random.up_to(2) {
            0 => word.wrapping_add(by),
            1 => word.wrapping_sub(by),
            _ => by,
        };
        count_each_call(&moment, &mut random, &mut tally);
    }
    tally.assert_seen(20, &outcomes());
}

/// The word about to be stored over is written: one byte of it, or all of it with the very bytes
/// that are to be stored, which is refused as well.
#[test]
fn words_that_are_not_erased() {
    let mut random = Random::new(504);
    let mut tally = Tally::new("calls over words that are not erased");
    for _ in 0..cases(100_000) {
        let mut moment = Moment::live(&mut random);
        let word = moment.word_to_store();
        match random.one_in(3) {
            true => moment.store_word(word),
            false => moment.slot[word + random.up_to(3)] = random.pick(&[0, 127, 254, 255]),
        }
        count_each_call(&moment, &mut random, &mut tally);
    }
    tally.assert_seen(1_000, &NOT_ERASED);
    tally.assert_seen(500, &NOT_LANDED);
}

/// Accepted, and the first word stands: a record whose file is not whole, though its count agrees,
/// is one that no session reaches.
#[test]
fn accepted_too_early() {
    let mut random = Random::new(506);
    let mut tally = Tally::new("calls on records that are accepted too early");
    for _ in 0..cases(20_000) {
        let mut moment = Moment::live(&mut random);
        moment.words[0] = 2;
        moment.words[5] = 1 + moment.words[3] + moment.words[4] / 4;
        moment.slot[..4].copy_from_slice(&moment.words[6].to_le_bytes());
        count_each_call(&moment, &mut random, &mut tally);
    }
    let confirmed = [("confirm", 0, 0)];
    tally.assert_exactly(5_000, &[&each_call(19)[..], &confirmed].concat());
}

/// The reserved words are not read.
#[test]
fn reserved_words() {
    let mut random = Random::new(505);
    let mut tally = Tally::new("calls with reserved words written");
    for _ in 0..cases(20_000) {
        let mut moment = Moment::live(&mut random);
        for word in &mut moment.words[8..] {
            *word = random.word();
        }
        count_each_call(&moment, &mut random, &mut tally);
    }
    tally.assert_seen(20, &each_call(0));
}
