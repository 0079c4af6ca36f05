//! Target `records`: a record of any sixteen words, or one that a session reaches, then a list of
//! changes to its words and its slot. Each call is made on it, in both forms, and then calls one
//! after another.

use crate::archive::installer::Words;
use crate::both::{Both, Way, AFTER, WAYS};
use crate::input::Input;
use crate::model::image::Inputs;
use crate::moment::Moment;
use crate::LONGEST_SLOT;

pub fn target(mut head: Input, mut list: Input) {
    let mut moment = match head.up_to(7) {
        0 => any_words(&mut head),
        1 => Moment::impossible(&mut head),
        _ => Moment::live(&mut head),
    };
    if moment.slot.len() > LONGEST_SLOT {
        return;
    }
    let lent = lent(moment.slot.len(), &mut list);
    let piece_length = list.up_to(6);
    let way = list.pick(&WAYS);
    while !list.has_ended() {
        change(&mut moment, &mut list);
    }
    call_each(&moment, lent, piece_length);
    call_in_turn(&moment, lent, way);
}

/// Words as the input has them.
fn any_words(head: &mut Input) -> Moment {
    let mut moment = Moment::impossible(&mut Input::new(0));
    moment.words = std::array::from_fn(|_| head.word());
    moment
}

/// How much of the slot is lent: mostly all of it.
fn lent(length: usize, list: &mut Input) -> usize {
    let another = list.pick(&[0, length - 4, length - 4_096, length + AFTER]);
    match list.one_in(8) {
        true => another,
        false => length,
    }
}

fn change(moment: &mut Moment, list: &mut Input) {
    match list.up_to(3) {
        0 => change_slot(moment, list),
        _ => change_word(&mut moment.words, list),
    }
}

/// One byte, mostly of a word about to be stored over.
fn change_slot(moment: &mut Moment, list: &mut Input) {
    let next = moment.words[4] as usize / 4 * 4;
    let any = list.up_to(4_095);
    let at = list.pick(&[0, next, any]) + list.up_to(3);
    let length = moment.slot.len();
    moment.slot[at % length] = list.pick(&[255, 254, 127, 0]);
}

/// Any number, another word's, or one that is off by little or much.
fn change_word(words: &mut Words, list: &mut Input) {
    let i = list.up_to(15);
    let by = list.pick(&[1, 2, 4, 4_096, 0x8000_0000]);
    words[i] = match list.up_to(4) {
        0 => list.word(),
        1 => list.byte().into(),
        2 => words[list.up_to(15)],
        3 => words[i].wrapping_add(by),
        _ => words[i].wrapping_sub(by),
    };
}

fn session(moment: &Moment, lent: usize) -> Both {
    let mut both = Both::with(moment.words, &moment.slot);
    both.lend(lent);
    both
}

/// Each call once, each on the record and the slot of this moment.
fn call_each(moment: &Moment, lent: usize, piece_length: usize) {
    let piece = &moment.next[..piece_length.min(moment.next.len())];
    for way in WAYS {
        let _ = session(moment, lent).erase(way);
        let _ = session(moment, lent).fill(way, piece);
        let _ = session(moment, lent).close(way, &moment.inputs);
    }
    let _ = session(moment, lent).ask();
    let _ = session(moment, lent).confirm();
}

/// The calls of an install from this moment on, as far as they go.
fn call_in_turn(moment: &Moment, lent: usize, way: Way) {
    let mut both = session(moment, lent);
    while both.erase(way).is_ok() {}
    let mut rest = &moment.next[..];
    while let Ok(taken @ 1..) = both.fill(way, rest) {
        rest = &rest[taken..];
    }
    close_and_go_on(&mut both, way, &moment.inputs);
}

/// After a close that the check answered, all calls are refused, but for a confirm that is due.
fn close_and_go_on(both: &mut Both, way: Way, inputs: &Inputs) {
    let _ = both.ask();
    for way in [way, Way::Memory, Way::Plan] {
        let _ = both.close(way, inputs);
    }
    let _ = both.erase(way);
    let _ = both.fill(way, &[0]);
    let _ = both.ask();
    for _ in 0..2 {
        let _ = both.confirm();
    }
}
