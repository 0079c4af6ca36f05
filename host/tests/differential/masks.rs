//! Every sigmask under every m of n: that of the vendor header and that of a loader by the policy,
//! that of the firmware header by the vendor header's own m of n.

use crate::area::{AreaDraft, AREAS};
use crate::checks::{compare, FORMS};
use crate::common::random::Random;
use crate::draft::Draft;
use crate::loaders::{self, in_both};
use crate::model::image::{Form, Inputs};
use crate::model::loader;
use crate::tally::{Tally, ACCEPTED};
use std::collections::BTreeSet;

/// The masks of exactly m signers among n keys, made by choosing the keys: the last of them, and
/// the others before it.
fn masks_of(m: u32, n: u32) -> BTreeSet<u8> {
    if m == 0 {
        return BTreeSet::from([0]);
    }
    let with_last = |last: u32| {
        let others = masks_of(m - 1, last).into_iter();
        others.map(move |others| others | 1 << last)
    };
    (0..n).flat_map(with_last).collect()
}

/// Every m of n that is possible.
fn every_m_of_n() -> impl Iterator<Item = (u32, u32)> {
    (1..=8).flat_map(|n| (1..=n).map(move |m| (m, n)))
}

/// Makes a check with every mask: one of m signers among n keys is accepted, and every other is
/// refused by this row.
fn with_every_mask(m: u32, n: u32, row: &str, mut check: impl FnMut(u8) -> &'static str) {
    let good = masks_of(m, n);
    for mask in 0..=255 {
        let expected = if good.contains(&mask) { ACCEPTED } else { row };
        assert_eq!(check(mask), expected, "{mask:#010b} under {m} of {n}");
    }
}

#[test]
fn of_the_vendor_header() {
    let mut random = Random::new(1601);
    let mut tally = Tally::new("checks of every vendor sigmask");
    for form in FORMS {
        let draft = Draft::smallest(form, &mut random);
        let mut bytes = draft.bytes();
        let at = draft.v() - 65;
        for (m, n) in every_m_of_n() {
            let inputs = Inputs {
                m,
                n,
                ..draft.inputs
            };
            with_every_mask(m, n, "S10", |mask| {
                bytes[at] = mask;
                let row = compare(form, &bytes, &inputs);
                tally.count(row);
                row
            });
        }
    }
    tally.assert_exactly(1_004, &["S10", ACCEPTED]);
}

/// A draft whose vendor header wants m of n, under a policy with another m and another n.
fn draft_of(m: u32, n: u32, form: Form, random: &mut Random) -> Draft {
    loop {
        let mut draft = Draft::smallest(form, random);
        if draft.fields.n == n && draft.inputs.m != m && draft.inputs.n != n {
            draft.vendor[14] = m as u8;
            return draft;
        }
    }
}

#[test]
fn of_the_firmware_header() {
    let mut random = Random::new(1602);
    let mut tally = Tally::new("checks of every firmware sigmask");
    for form in FORMS {
        for (m, n) in every_m_of_n() {
            let draft = draft_of(m, n, form, &mut random);
            let mut bytes = draft.bytes();
            let at = draft.v() + 959;
            with_every_mask(m, n, "S19", |mask| {
                bytes[at] = mask;
                let row = compare(form, &bytes, &draft.inputs);
                tally.count(row);
                row
            });
        }
    }
    tally.assert_exactly(1_004, &["S19", ACCEPTED]);
}

#[test]
fn of_a_loader() {
    let mut random = Random::new(1603);
    let mut tally = Tally::new("loader checks of every sigmask");
    for area in AREAS {
        let draft = AreaDraft::small(area, &mut random);
        let mut bytes = draft.bytes();
        for (m, n) in every_m_of_n() {
            let inputs = loader::Inputs {
                m,
                n,
                ..draft.inputs
            };
            with_every_mask(m, n, "S19", |mask| {
                bytes[959] = mask;
                let row = loaders::compare(area, &bytes, &inputs);
                tally.count(row);
                row.1
            });
        }
    }
    tally.assert_exactly(502, &in_both(&["S19", ACCEPTED]));
}

/// No sigmask is good under a policy that is not possible.
#[test]
fn of_a_loader_under_impossible_policies() {
    let mut random = Random::new(1604);
    let small = (0..=9).flat_map(|m| (0..=9).map(move |n| (m, n)));
    let impossible = small.filter(|small| !every_m_of_n().any(|possible| possible == *small));
    let large = [(258, 259), (1, 264), (257, 8), (u32::MAX, u32::MAX)];
    for (m, n) in impossible.chain(large) {
        for area in AREAS {
            let mut draft = AreaDraft::small(area, &mut random);
            (draft.inputs.m, draft.inputs.n) = (m, n);
            for mask in 0..=255 {
                draft.header[959] = mask;
                assert_eq!(loaders::compare_draft(&draft), (area, "S2"), "{m} of {n}");
            }
        }
    }
}
