//! Lists of calls after one begin, in both forms: most of them in turn, the rest at any time, and
//! the list may end anywhere, also inside an erase. On a slot that nobody else writes, "done means
//! landed" is watched after each.

use crate::both::{Both, Way, AFTER, WAYS};
use crate::common::random::Random;
use crate::draft::{any_inputs, slot_length, Draft};
use crate::faults::faulty_draft;
use crate::landed::Landed;
use crate::model::image::{Form, Inputs};
use crate::tally::{
    cases, each_call, outcome, outcome_of_close, outcomes, Outcome, Tally, NOT_ERASED, NOT_LANDED,
};

enum Call {
    Erase(Way),
    Fill(Way, Vec<u8>),
    Ask,
    Close(Way, Inputs),
    Confirm,
}

/// What one list is about: the file that is given and the inputs that fit it.
struct Plan {
    file: Vec<u8>,
    inputs: Inputs,
}

impl Plan {
    fn new(random: &mut Random) -> Plan {
        let draft = faulty_draft(1, Form::File, random);
        Plan {
            file: draft.file(),
            inputs: draft.inputs,
        }
    }
}

/// What the slot held before: erased, an image of its own, or anything.
fn found(length: usize, random: &mut Random) -> Vec<u8> {
    match random.up_to(2) {
        0 => vec![255; length],
        1 => random.bytes(length),
        _ => {
            let mut slot = Draft::small(Form::File, random).file();
            slot.resize(length, 255);
            slot
        }
    }
}

/// The next bytes of the file, as many as a caller may happen to have.
fn piece(plan: &Plan, given: usize, random: &mut Random) -> Vec<u8> {
    let length = random.pick(&[0, 1, 2, 3, 4, 4, 4, 5, 100]);
    let rest = &plan.file[given..];
    let mut piece = rest[..length.min(rest.len())].to_vec();
    piece.resize(length, 0x77);
    piece
}

/// The call whose turn it is, mostly.
fn next_call(plan: &Plan, landed: &Landed, random: &mut Random) -> Call {
    let turn = match (landed.is_erasing(), landed.all_given()) {
        _ if random.one_in(10) => random.up_to(4),
        _ if landed.is_waiting() => 4,
        (true, _) => 0,
        (false, false) => 1,
        (false, true) => random.pick(&[2, 3]),
    };
    let way = random.pick(&WAYS);
    match turn {
        0 => Call::Erase(way),
        1 => Call::Fill(way, piece(plan, landed.given(), random)),
        2 => Call::Ask,
        3 if random.one_in(8) => Call::Close(way, any_inputs(random)),
        3 => Call::Close(way, plan.inputs),
        _ => Call::Confirm,
    }
}

/// Makes the call by both, and shows its answer to the watcher.
fn make(call: &Call, both: &mut Both, landed: &mut Landed) -> Outcome {
    match call {
        Call::Erase(way) => {
            let answer = both.erase(*way);
            landed.erase(answer, both.slot());
            outcome("erase", *way, &answer)
        }
        Call::Fill(way, piece) => {
            let answer = both.fill(*way, piece);
            landed.fill(piece, answer, both.slot());
            outcome("fill", *way, &answer)
        }
        Call::Ask => {
            let answer = both.ask();
            landed.ask(&answer, both.slot());
            outcome("ask", Way::Memory, &answer)
        }
        Call::Close(way, inputs) => {
            let answer = both.close(*way, inputs);
            landed.close(*way, inputs, answer, both.slot());
            outcome_of_close(*way, &answer)
        }
        Call::Confirm => {
            let answer = both.confirm();
            landed.confirm(answer, both.slot());
            outcome("confirm", Way::Memory, &answer)
        }
    }
}

#[test]
fn done_means_landed() {
    let mut random = Random::new(601);
    let mut tally = Tally::new("calls in lists");
    let mut cuts = 0;
    for _ in 0..cases(2_500) {
        let plan = Plan::new(&mut random);
        let found = found(slot_length(plan.file.len(), &mut random), &mut random);
        let (refused, mut both) = Both::begin(&found, plan.file.len());
        assert_eq!(refused, None);
        let mut landed = Landed::after_begin(refused, &found, plan.file.len());
        let most = random.pick(&[4, 2 * plan.file.len(), 2 * plan.file.len()]);
        for _ in 0..random.up_to(most) {
            let call = next_call(&plan, &landed, &mut random);
            tally.count(make(&call, &mut both, &mut landed));
            if landed.is_over() && random.one_in(16) {
                break;
            }
        }
        if landed.is_erasing() {
            let left = both.cut_in_erase(&mut || random.one_in(2));
            landed.cut_in_erase(&left);
            cuts += 1;
        }
    }
    tally.assert_exactly(5, &outcomes());
    assert!(cuts >= 100, "lists that end inside an erase");
}

/// A list after a refused begin changes nothing.
#[test]
fn calls_after_a_refused_begin() {
    let mut random = Random::new(602);
    let mut tally = Tally::new("calls after a refused begin");
    for _ in 0..cases(2_000) {
        let plan = Plan::new(&mut random);
        let found = random.bytes(4_096);
        let file_length = random.pick(&[0, 1_536, 1_541, 4_100]);
        let (refused, mut both) = Both::begin(&found, file_length);
        assert_eq!(refused, Some(18));
        let mut landed = Landed::after_begin(refused, &found, file_length);
        for way in WAYS {
            for call in [
                Call::Erase(way),
                Call::Fill(way, piece(&plan, 0, &mut random)),
                Call::Ask,
                Call::Close(way, plan.inputs),
                Call::Confirm,
            ] {
                tally.count(make(&call, &mut both, &mut landed));
            }
        }
    }
    tally.assert_exactly(2_000, &each_call(19));
}

/// Writes a byte into the slot, mostly where a call is about to store: the first word once all
/// others are. Gives what stood there.
fn meddle(both: &mut Both, plan: &Plan, given: usize, random: &mut Random) -> (usize, u8) {
    let next = given / 4 * 4 % plan.file.len();
    let (first, next) = (random.up_to(3), next + random.up_to(3));
    let any = random.up_to(both.slot().len() - 1);
    let at = random.pick(&[first, next, next, any]);
    let before = both.slot()[at];
    both.poke(at, random.pick(&[0, 127, 254, 255]));
    (at, before)
}

/// Lends another length for one call, or the right one.
fn lend(both: &mut Both, random: &mut Random) {
    let length = both.slot().len();
    let wrong = random.pick(&[0, length - 4_096, length - 4, length + AFTER]);
    both.lend(if random.one_in(4) { wrong } else { length });
}

/// One call of an install, the one whose turn it is. Gives the bytes taken.
fn call_in_turn(
    plan: &Plan,
    given: usize,
    both: &mut Both,
    random: &mut Random,
    tally: &mut Tally<Outcome>,
) -> usize {
    let way = random.pick(&WAYS);
    if given < plan.file.len() {
        let answer = both.fill(way, &plan.file[given..]);
        tally.count(outcome("fill", way, &answer));
        return answer.unwrap_or(0);
    }
    tally.count(match random.up_to(2) {
        0 => outcome("ask", Way::Memory, &both.ask()),
        1 => outcome_of_close(way, &both.close(way, &plan.inputs)),
        _ => outcome("confirm", Way::Memory, &both.confirm()),
    });
    0
}

/// With a slot that others write, the archive still answers as the model does. What was written is
/// mostly put back after the call, so that the install goes on.
#[test]
fn meddled_slots() {
    let mut random = Random::new(603);
    let mut tally = Tally::new("calls with meddling");
    for _ in 0..cases(1_500) {
        let plan = Plan::new(&mut random);
        let found = found(slot_length(plan.file.len(), &mut random), &mut random);
        let (_, mut both) = Both::begin(&found, plan.file.len());
        for _ in 0..=found.len() / 4_096 {
            let way = random.pick(&WAYS);
            tally.count(outcome("erase", way, &both.erase(way)));
        }
        let mut given = 0;
        let while_filling = random.pick(&[2, 20, 200]);
        for _ in 0..plan.file.len() / 4 + 40 {
            let is_filling = given < plan.file.len();
            if random.one_in(if is_filling { while_filling } else { 2 }) {
                let (at, before) = meddle(&mut both, &plan, given, &mut random);
                lend(&mut both, &mut random);
                let taken = call_in_turn(&plan, given, &mut both, &mut random, &mut tally);
                given += taken;
                both.lend(found.len());
                if !random.one_in(100) {
                    both.poke(at, before);
                }
            } else {
                given += call_in_turn(&plan, given, &mut both, &mut random, &mut tally);
            }
        }
    }
    let not_erasing = &each_call(19)[2..];
    let wanted = [&NOT_ERASED[..], &NOT_LANDED, &each_call(0), not_erasing].concat();
    tally.assert_seen(50, &wanted);
}
