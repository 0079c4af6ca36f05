//! Target `loaders`: a card and an internal area with some faults, then a list of damages to either.
//! Both checks of each, the digest question and the choice are compared.

use crate::archive::loader as archive;
use crate::area::{any_loader_inputs, AreaDraft, AREAS, LONGEST_CODE};
use crate::areas::Areas;
use crate::check::damage;
use crate::input::Input;
use crate::model::loader::{self as model, Area, Inputs};

/// Where the parts of a loader begin, and the fields that the steps read.
const PLACES: [usize; 7] = [0, 32, 64, 544, 959, 1_024, 1_028];

/// Numbers at which a step changes its answer.
const EDGES: [u32; 5] = [0, 1_024, 130_048, 131_072, 2_096_128];

pub fn target(mut head: Input, mut list: Input) {
    let mut areas = areas(&mut head);
    if head.one_in(8) {
        areas.inputs = any_loader_inputs(&mut head);
    }
    let drafts = [&areas.card, &areas.internal];
    let mut lent = drafts.map(|draft| (draft.bytes(), draft.length()));
    while !list.has_ended() {
        let (bytes, length) = &mut lent[list.up_to(1)];
        damage(bytes, length, &PLACES, &EDGES, &mut list);
    }
    let [card, internal] = lent;
    compare_all(&card, &internal, &areas.inputs);
}

/// Mostly two small loaders, with faults or none. Now and then one has about as much code as it may.
fn areas(head: &mut Input) -> Areas {
    if !head.one_in(1_024) {
        return Areas::faulty(2, head);
    }
    let mut areas = Areas::accepted(head);
    let length = LONGEST_CODE + head.pick(&[0, 4, 8]) - 4;
    let area = head.pick(&AREAS);
    let draft = AreaDraft::with_code(length, areas.inputs, area, head);
    match area {
        Area::Card => areas.card = draft,
        Area::Internal => areas.internal = draft,
    }
    areas
}

/// The areas are lent at odd places. The bytes behind the lent ones are still there, so that a call
/// that reads on finds what it must not see. Each is also checked as the other, and lent as both.
fn compare_all(card: &(Vec<u8>, usize), internal: &(Vec<u8>, usize), inputs: &Inputs) {
    let memory = [card, internal].map(|(bytes, _)| [&[0x5a; 5], &bytes[..]].concat());
    let before = memory.clone();
    let card = &memory[0][5..][..card.1];
    let internal = &memory[1][5..][..internal.1];
    for bytes in [card, internal] {
        for area in AREAS {
            let answer = archive::check(area, bytes, inputs);
            assert_eq!(answer, model::check(area, bytes, inputs), "{area:?}");
        }
        assert_eq!(archive::digest(bytes), model::digest(bytes));
    }
    for (card, internal) in [(card, internal), (internal, card), (card, card)] {
        let answer = archive::choose(card, internal, inputs);
        assert_eq!(answer, model::choose(card, internal, inputs), "the choice");
    }
    assert!(memory == before, "a call wrote to the bytes it was lent");
}
