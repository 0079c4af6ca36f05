//! The choice of the loader to run: the answers of two areas in all combinations, with the verdicts,
//! the policies and the places that go with them.

use crate::archive::loader as archive;
use crate::area::{any_loader_inputs, loader_inputs, AreaDraft, AREAS, LONGEST_CODE};
use crate::areas::Areas;
use crate::common::random::Random;
use crate::model::image::Refusal;
use crate::model::loader::{self as model, Area, Chosen, Inputs};
use crate::tally::{cases, loader_step, Tally, ACCEPTED, LOADER_STEPS};

/// The choice. The areas stand at odd places and stay as they are.
fn choose_in(areas: &Areas) -> Result<Chosen, Refusal> {
    let memory = [&areas.card, &areas.internal].map(|draft| {
        let before = [0x5a; 5];
        [&before, &draft.bytes()[..]].concat()
    });
    let lent = memory.clone();
    let card = &lent[0][5..][..areas.card.length()];
    let internal = &lent[1][5..][..areas.internal.length()];
    let answer = choose(card, internal, &areas.inputs);
    assert!(lent == memory, "a choice wrote to the bytes it was lent");
    answer
}

/// The rows that answer for the two areas.
fn rows(areas: &Areas) -> [&'static str; 2] {
    [&areas.card, &areas.internal].map(|draft| {
        let bytes = &draft.bytes()[..draft.length()];
        loader_step(&model::check(draft.area, bytes, &areas.inputs))
    })
}

/// The choice by both. That of the archive also follows from its own two checks.
fn choose(card: &[u8], internal: &[u8], inputs: &Inputs) -> Result<Chosen, Refusal> {
    let answer = archive::choose(card, internal, inputs);
    assert_eq!(answer, model::choose(card, internal, inputs), "{inputs:?}");
    let of_card = archive::check(Area::Card, card, inputs);
    let of_internal = archive::check(Area::Internal, internal, inputs);
    match &answer {
        Err(refusal) => assert_eq!((of_card.is_err(), of_internal), (true, Err(*refusal))),
        Ok(chosen) => {
            assert_eq!(chosen.area == Area::Card, of_card.is_ok());
            let image = of_card.or(of_internal).expect("it is accepted");
            assert_eq!(chosen.place, 0..1_024 + image.codelen as usize);
        }
    }
    answer
}

/// Both areas share the policy: where it is impossible, both fail S2 unless they fail S1.
fn can_be(rows: [&str; 2]) -> bool {
    let [card, internal] = rows.map(|row| row == "S2");
    let [card_early, internal_early] = rows.map(|row| ["S1", "S2"].contains(&row));
    (!card || internal_early) && (!internal || card_early)
}

/// Every answer of a card with every answer of the internal area.
#[test]
fn every_pair_of_answers() {
    let mut random = Random::new(1401);
    let mut tally = Tally::new("choices");
    let outcomes = [&LOADER_STEPS[..], &[ACCEPTED]].concat();
    for first in 0..outcomes.len() {
        for second in 0..outcomes.len() {
            for _ in 0..cases(60) {
                let mut areas = Areas::accepted(&mut random);
                if first < LOADER_STEPS.len() {
                    areas.spoil(Area::Card, first, &mut random);
                }
                if second < LOADER_STEPS.len() {
                    areas.spoil(Area::Internal, second, &mut random);
                }
                let area = choose_in(&areas).ok().map(|chosen| chosen.area);
                let rows = rows(&areas);
                let expected = match rows {
                    [ACCEPTED, _] => Some(Area::Card),
                    [_, ACCEPTED] => Some(Area::Internal),
                    _ => None,
                };
                assert_eq!(area, expected, "{rows:?}");
                tally.count(rows);
            }
        }
    }
    let pairs = outcomes
        .iter()
        .flat_map(|card| outcomes.iter().map(move |row| [*card, *row]));
    let pairs: Vec<_> = pairs.filter(|rows| can_be(*rows)).collect();
    assert_eq!(pairs.len(), 14 * 14 - 2 * 12);
    tally.assert_exactly(5, &pairs);
}

/// Any inputs with two areas that are accepted but for them.
#[test]
fn any_inputs() {
    let mut random = Random::new(1402);
    let mut tally = Tally::new("choices with any inputs");
    for _ in 0..cases(30_000) {
        let mut areas = Areas::accepted(&mut random);
        let any = any_loader_inputs(&mut random);
        areas.inputs = match random.one_in(2) {
            true => any,
            false => Inputs {
                card: any.card,
                internal: any.internal,
                ..areas.inputs
            },
        };
        let area = choose_in(&areas).map(|chosen| chosen.area);
        tally.count(area.map_err(|refusal| refusal.number));
    }
    let refusals = [16, 7, 8, 9].map(Err);
    let found = [&[Ok(Area::Card), Ok(Area::Internal)], &refusals[..]].concat();
    tally.assert_exactly(50, &found);
}

#[test]
fn every_pair_of_verdicts() {
    let mut random = Random::new(1403);
    let words = [0, 1, 2, 3, 257, 0x0100_0000, u32::MAX];
    for (card, internal) in words
        .iter()
        .flat_map(|card| words.map(|word| (*card, word)))
    {
        for _ in 0..cases(20) {
            let mut areas = Areas::accepted(&mut random);
            (areas.inputs.card, areas.inputs.internal) = (card, internal);
            let answer = choose_in(&areas).map(|chosen| chosen.area);
            match (card, internal) {
                (1, _) => assert_eq!(answer, Ok(Area::Card)),
                (_, 1) => assert_eq!(answer, Ok(Area::Internal)),
                _ => assert_eq!(answer.map_err(|refusal| refusal.number), Err(9)),
            }
        }
    }
}

#[test]
fn every_policy() {
    let mut random = Random::new(1404);
    for (m, n) in (0..=9).flat_map(|m| (0..=9).map(move |n| (m, n))) {
        for _ in 0..cases(20) {
            let mut areas = Areas::accepted(&mut random);
            let signers = areas.inputs.m;
            (areas.inputs.m, areas.inputs.n) = (m, n);
            let answer = choose_in(&areas).map_err(|refusal| (refusal.number, refusal.part));
            if !(1 <= m && m <= n && n <= 8) {
                assert_eq!(answer, Err((16, 0)), "{m} of {n}");
            } else if m != signers {
                assert_eq!(answer, Err((8, 2)), "{signers} signers, {m} of {n}");
            }
        }
    }
}

/// The place is that of the chosen area's own code, be it the shortest or the longest.
#[test]
fn places() {
    let mut random = Random::new(1405);
    for lengths in [[4, LONGEST_CODE], [LONGEST_CODE, 4], [64, 68]] {
        let inputs = loader_inputs(&mut random);
        let mut draft = |area, length| AreaDraft::with_code(length, inputs, area, &mut random);
        let mut areas = Areas {
            card: draft(Area::Card, lengths[0]),
            internal: draft(Area::Internal, lengths[1]),
            inputs,
        };
        for (area, length) in AREAS.into_iter().zip(lengths) {
            let place = 0..1_024 + length;
            assert_eq!(choose_in(&areas), Ok(Chosen { area, place }));
            areas.inputs.card = 0;
        }
    }
}

/// A loader without a tail is good in both areas, and the same bytes may be lent as both.
#[test]
fn one_area_lent_as_both() {
    let mut random = Random::new(1406);
    for area in AREAS {
        let mut draft = AreaDraft::small(area, &mut random);
        draft.tail.clear();
        let (bytes, inputs) = (draft.bytes(), draft.inputs);
        let chosen = choose(&bytes, &bytes, &inputs).expect("it is accepted");
        assert_eq!(chosen.area, Area::Card);
        let inputs = Inputs { card: 0, ..inputs };
        let chosen = choose(&bytes, &bytes, &inputs).expect("it is accepted");
        assert_eq!(chosen.area, Area::Internal);
    }
}

/// An area that is not there has no bytes.
#[test]
fn without_an_area() {
    let mut random = Random::new(1407);
    let areas = Areas::accepted(&mut random);
    let (card, internal) = (areas.card.bytes(), areas.internal.bytes());
    let area = |answer: Result<Chosen, Refusal>| answer.map(|chosen| chosen.area);
    let no_loader = Refusal {
        number: 1,
        part: 2,
        chunk: 0,
    };
    assert_eq!(area(choose(&card, &[], &areas.inputs)), Ok(Area::Card));
    assert_eq!(
        area(choose(&[], &internal, &areas.inputs)),
        Ok(Area::Internal)
    );
    assert_eq!(choose(&[], &[], &areas.inputs), Err(no_loader));
}

/// Each area in the other's place: a tail that is right in the one is wrong in the other.
#[test]
fn areas_in_each_others_place() {
    let mut random = Random::new(1408);
    for _ in 0..cases(200) {
        let mut areas = Areas::accepted(&mut random);
        let (of_card, of_internal) = (areas.card.tail.len(), areas.internal.tail.len());
        std::mem::swap(&mut areas.card.tail, &mut areas.internal.tail);
        let answer = choose_in(&areas).map(|chosen| chosen.area);
        let expected = match (of_internal, of_card) {
            (0, _) => Ok(Area::Card),
            (_, 0) => Ok(Area::Internal),
            _ => Err(13),
        };
        assert_eq!(answer.map_err(|refusal| refusal.number), expected);
    }
}
