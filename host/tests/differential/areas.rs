//! A card and an internal area, for a choice between their loaders.

use crate::area::{loader_inputs, AreaDraft, AREAS};
use crate::area_faults::spoil;
use crate::common::random::Random;
use crate::model::loader::{Area, Inputs};
use crate::tally::LOADER_STEPS;

/// Both areas in pieces, and the inputs for both. Those of the drafts do not count.
pub struct Areas {
    pub card: AreaDraft,
    pub internal: AreaDraft,
    pub inputs: Inputs,
}

impl Areas {
    /// With a small loader in each that is accepted.
    pub fn accepted(random: &mut Random) -> Areas {
        let inputs = loader_inputs(random);
        let [card, internal] = AREAS.map(|area| AreaDraft::accepted_with(inputs, area, random));
        Areas {
            card,
            internal,
            inputs,
        }
    }

    /// The same with up to `most` faults in each.
    pub fn faulty(most: usize, random: &mut Random) -> Areas {
        let mut areas = Areas::accepted(random);
        for area in AREAS {
            for _ in 0..random.up_to(most) {
                areas.spoil(area, random.up_to(LOADER_STEPS.len() - 1), random);
            }
        }
        areas
    }

    /// Puts in the fault that `LOADER_STEPS[fault]` finds. Time and policy are those of both areas.
    pub fn spoil(&mut self, area: Area, fault: usize, random: &mut Random) {
        let draft = match area {
            Area::Card => &mut self.card,
            Area::Internal => &mut self.internal,
        };
        draft.inputs = self.inputs;
        spoil(fault, draft, random);
        self.inputs = draft.inputs;
    }
}
