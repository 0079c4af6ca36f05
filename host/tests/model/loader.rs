//! Loaders (specification, 16): the check of a memory card and of the internal area, the digest
//! question, and the choice of the loader to run. Each step is judged only where all before it hold.

use super::blake2s::blake2s;
use super::image::{
    all_zero, digest_to_sign, expired, image_told, mask_fails, policy_is_possible, refuse_if,
    Image, Refusal, Step, CODE, NO_PART, YES,
};
use super::layout::{word, Firmware};
use std::ops::Range;

/// Bytes of a loader's header, which is laid out as the firmware header.
const LOADER_HEADER: usize = 1_024;

/// Bytes of the longest code.
const LONGEST_CODE: usize = 130_048;

/// The part that a refusal about the header has.
const HEADER: u32 = 2;

#[derive(Clone, Copy, Debug, PartialEq, Eq, PartialOrd, Ord)]
pub enum Area {
    Card,
    Internal,
}

impl Area {
    /// What each byte after the code must be.
    fn filler(self) -> u8 {
        match self {
            Area::Card => 0,
            Area::Internal => 255,
        }
    }
}

/// What is taken besides the bytes: the time and a key policy of `m` of `n` for both areas, and the
/// verdict on each.
#[derive(Clone, Copy, Debug, PartialEq, Eq)]
pub struct Inputs {
    pub time: u32,
    pub m: u32,
    pub n: u32,
    pub card: u32,
    pub internal: u32,
}

impl Inputs {
    fn verdict_on(&self, area: Area) -> u32 {
        match area {
            Area::Card => self.card,
            Area::Internal => self.internal,
        }
    }
}

/// S1.
fn magic(bytes: &[u8]) -> Step {
    refuse_if(!bytes.starts_with(b"TRZB"), 1, HEADER)
}

/// The header's length, S14, S16 and S17.
fn shape(bytes: &[u8]) -> Step {
    refuse_if(bytes.len() < LOADER_HEADER, 2, HEADER)?;
    let header = Firmware(bytes);
    refuse_if(header.hdrlen() != LOADER_HEADER, 11, HEADER)?; // S14
    let codelen = header.codelen();
    let is_possible = codelen % 4 == 0 && (4..=LONGEST_CODE).contains(&codelen);
    refuse_if(!is_possible, 12, HEADER)?; // S16
    refuse_if(!all_zero(header.zeros()), 6, HEADER) // S17
}

/// S18 to S20.
fn policy(area: Area, bytes: &[u8], inputs: &Inputs) -> Step {
    let header = Firmware(bytes);
    refuse_if(expired(header.expiry(), inputs.time), 7, HEADER)?; // S18
    let mask_fails = mask_fails(header.sigmask(), inputs.m, inputs.n);
    refuse_if(mask_fails, 8, HEADER)?; // S19
    refuse_if(inputs.verdict_on(area) != YES, 9, HEADER) // S20
}

/// S21 to S23.
fn code(area: Area, bytes: &[u8]) -> Step {
    let header = Firmware(bytes);
    let end = LOADER_HEADER + header.codelen();
    refuse_if(bytes.len() < end, 2, CODE)?; // S21
    let (image, after) = bytes.split_at(end);
    let follows = after.iter().any(|byte| *byte != area.filler());
    refuse_if(follows, 13, CODE)?; // S22
    let mut right = [[0; 32]; 16];
    right[0] = blake2s(&image[LOADER_HEADER..]);
    match (1..=16).find(|k| header.hashes()[k - 1] != right[k - 1]) {
        None => Ok(()),
        Some(k) => Err(Refusal {
            number: if k == 1 { 14 } else { 15 },
            part: CODE,
            chunk: word(k),
        }), // S23
    }
}

/// The check of one area.
pub fn check(area: Area, bytes: &[u8], inputs: &Inputs) -> Result<Image, Refusal> {
    magic(bytes)?;
    refuse_if(!policy_is_possible(inputs.m, inputs.n), 16, NO_PART)?; // S2
    shape(bytes)?;
    policy(area, bytes, inputs)?;
    code(area, bytes)?;
    Ok(image_told(0, &Firmware(bytes)))
}

/// The question of a loader's header: S1, its length, S14, S16 and S17.
pub fn digest(bytes: &[u8]) -> Result<[u8; 32], Refusal> {
    magic(bytes)?;
    shape(bytes)?;
    Ok(digest_to_sign(&bytes[..LOADER_HEADER]))
}

/// The loader to run: its area, and where header and code stand in it.
#[derive(Clone, Debug, PartialEq, Eq)]
pub struct Chosen {
    pub area: Area,
    pub place: Range<usize>,
}

/// The card's if it is accepted, otherwise the internal one's if it is accepted, otherwise the
/// internal refusal.
pub fn choose(card: &[u8], internal: &[u8], inputs: &Inputs) -> Result<Chosen, Refusal> {
    let chosen = |area, image: Image| Chosen {
        area,
        place: 0..LOADER_HEADER + image.codelen as usize,
    };
    match check(Area::Card, card, inputs) {
        Ok(image) => Ok(chosen(Area::Card, image)),
        Err(_) => {
            let image = check(Area::Internal, internal, inputs)?;
            Ok(chosen(Area::Internal, image))
        }
    }
}
