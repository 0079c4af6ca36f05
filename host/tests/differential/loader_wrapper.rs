//! The safe wrapper of the loaders' calls says what the model says.

use crate::area::{AreaDraft, AREAS};
use crate::area_faults::spoil;
use crate::areas::Areas;
use crate::common::random::Random;
use crate::model::image::{self, YES};
use crate::model::loader::{self as model, Inputs};
use crate::tally::{cases, loader_step, Tally, ACCEPTED, LOADER_STEPS};
use crate::wrapper::{refusal, version};
use thimmorel::{Area, Chosen, Loader, LoaderInputs, Part, Reason, Refusal};

fn inputs(inputs: &Inputs) -> LoaderInputs {
    LoaderInputs {
        time: inputs.time,
        m: inputs.m,
        n: inputs.n,
        card_verdict: inputs.card == YES,
        internal_verdict: inputs.internal == YES,
    }
}

/// Part 2 is the loader's header.
fn loader_refusal(told: image::Refusal) -> Refusal {
    let part = match told.part {
        2 => Some(Part::LoaderHeader),
        _ => refusal(told).part,
    };
    Refusal {
        part,
        ..refusal(told)
    }
}

/// The model's acceptance in the wrapper's types.
fn loader<'a>(bytes: &'a [u8], told: &image::Image) -> Loader<'a> {
    Loader {
        version: version(told.version),
        fix_version: version(told.fix),
        code: &bytes[1_024..1_024 + told.codelen as usize],
    }
}

/// A draft with a fault or none.
fn faulty(area: model::Area, random: &mut Random) -> AreaDraft {
    let mut draft = AreaDraft::small(area, random);
    if !random.one_in(8) {
        spoil(random.up_to(LOADER_STEPS.len() - 1), &mut draft, random);
    }
    draft
}

#[test]
fn checks_and_questions() {
    let mut random = Random::new(1501);
    let mut tally = Tally::new("loader checks by the wrapper");
    for _ in 0..cases(10_000) {
        for area in AREAS {
            let draft = faulty(area, &mut random);
            let bytes = &draft.bytes()[..draft.length()];
            let answer = match area {
                model::Area::Card => thimmorel::check_card(bytes, inputs(&draft.inputs)),
                model::Area::Internal => thimmorel::check_internal(bytes, inputs(&draft.inputs)),
            };
            let by_model = model::check(area, bytes, &draft.inputs);
            tally.count(loader_step(&by_model));
            let by_model = by_model.map(|told| loader(bytes, &told));
            assert_eq!(answer, by_model.map_err(loader_refusal));

            let digest = model::digest(bytes).map_err(loader_refusal);
            assert_eq!(thimmorel::loader_digest(bytes), digest);
        }
    }
    tally.assert_exactly(100, &[&LOADER_STEPS[..], &[ACCEPTED]].concat());
}

/// The bytes of the choice are a part of the area that holds the loader, not a copy.
#[test]
fn choices() {
    let mut random = Random::new(1502);
    let mut tally = Tally::new("choices by the wrapper");
    for _ in 0..cases(10_000) {
        let areas = Areas::faulty(1, &mut random);
        let given = areas.inputs;
        let [card, internal] = [areas.card, areas.internal].map(|draft| {
            let mut bytes = draft.bytes();
            bytes.truncate(draft.length());
            bytes
        });
        let answer = thimmorel::choose_loader(&card, &internal, inputs(&given));
        let expected = model::choose(&card, &internal, &given).map(|chosen| {
            let (area, bytes) = match chosen.area {
                model::Area::Card => (Area::Card, &card),
                model::Area::Internal => (Area::Internal, &internal),
            };
            let bytes = &bytes[chosen.place];
            Chosen { area, bytes }
        });
        assert_eq!(answer, expected.map_err(loader_refusal));
        if let (Ok(chosen), Ok(expected)) = (answer, expected) {
            assert_eq!(chosen.bytes.as_ptr(), expected.bytes.as_ptr());
            assert_eq!(chosen.code(), &expected.bytes[1_024..]);
        }
        tally.count(answer.ok().map(|chosen| chosen.area == Area::Card));
    }
    tally.assert_exactly(500, &[None, Some(true), Some(false)]);
}

#[test]
fn how_a_refused_loader_reads() {
    let refused = Refusal {
        reason: Reason::FirmwareLength,
        part: Some(Part::LoaderHeader),
        chunk: None,
    };
    assert_eq!(
        refused.to_string(),
        "refused with 11 in the loader header: \
         the firmware header, a loader's or the V2 header does not give its length as 1,024"
    );
}

/// `Debug` tells how many bytes there are, and not all of them.
#[test]
fn how_a_loader_is_shown() {
    let long = vec![0; 131_072];
    let loader = Loader {
        version: version([2, 0, 0, 1]),
        fix_version: version([1, 0, 0, 0]),
        code: &long[1_024..],
    };
    let shown = format!("{loader:?}");
    assert!(shown.ends_with("code: 130048 bytes }"), "{shown}");
    let chosen = Chosen {
        area: Area::Card,
        bytes: &long,
    };
    assert_eq!(
        format!("{chosen:?}"),
        "Chosen { area: Card, bytes: 131072 bytes }"
    );
}
