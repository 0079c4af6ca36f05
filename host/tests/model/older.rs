//! Images of the older model (specification, 17): the check of the V2 header with its code, by
//! itself or behind a legacy header, and the digest questions. Each step is judged only where all
//! before it hold.

use super::image::{
    all_zero, chunks, expired, extent, image_told, refuse_if, Form, Image, Refusal, Step, CODE,
    NO_PART, YES,
};
use super::layout::{u32_at, Firmware};
use super::sha256::sha256;
use std::ops::Range;

/// Bytes of the legacy header, which starts with `TRZR`.
const LEGACY_HEADER: usize = 256;

/// Bytes of the V2 header, which is laid out as the firmware header up to its hashes.
const V2_HEADER: usize = 1_024;

/// Bytes of code that chunk 1 has room for, in both forms.
pub const ROOM_IN_FIRST: usize = 129_792;

/// The parts that refusals about the headers have.
const LEGACY: u32 = 1;
const V2: u32 = 2;

/// The two forms: the V2 header by itself, and the pair of both headers.
#[derive(Clone, Copy, Debug, PartialEq, Eq, PartialOrd, Ord)]
pub enum Headers {
    V2,
    Pair,
}

impl Headers {
    /// Where the V2 header starts.
    pub fn v2(self) -> usize {
        match self {
            Headers::V2 => 0,
            Headers::Pair => LEGACY_HEADER,
        }
    }
}

/// What is taken besides the bytes: the time, the number of keys in the sheet, and the verdicts on
/// the three signatures of each header.
#[derive(Clone, Copy, Debug, PartialEq, Eq)]
pub struct Inputs {
    pub time: u32,
    pub keys: u32,
    pub legacy: [u32; 3],
    pub v2: [u32; 3],
}

/// Indexes count from 1, lie in the sheet, and are distinct.
fn indexes_fail(indexes: &[u8], keys: u32) -> bool {
    let mut seen = Vec::new();
    for index in indexes {
        let in_sheet = (1..=keys).contains(&u32::from(*index));
        if !in_sheet || seen.contains(index) {
            return true;
        }
        seen.push(*index);
    }
    false
}

fn verdicts_fail(verdicts: [u32; 3]) -> bool {
    verdicts.iter().any(|verdict| *verdict != YES)
}

/// Bytes that start with a legacy header.
struct Legacy<'a>(&'a [u8]);

impl Legacy<'_> {
    fn codelen(&self) -> usize {
        u32_at(self.0, 4) as usize
    }

    fn indexes(&self) -> &[u8] {
        &self.0[8..11]
    }

    /// The flags byte, and the 52 after it.
    fn zeros(&self) -> [&[u8]; 2] {
        [&self.0[0x0b..0x0b + 1], &self.0[0x0c..0x0c + 52]]
    }

    /// What its signatures sign: V2 header and code.
    fn signed(&self) -> Range<usize> {
        LEGACY_HEADER..LEGACY_HEADER + self.codelen()
    }
}

/// Magic, length, codelen and zero bytes of the legacy header.
fn legacy_shape(bytes: &[u8]) -> Step {
    refuse_if(!bytes.starts_with(b"TRZR"), 1, LEGACY)?;
    refuse_if(bytes.len() < LEGACY_HEADER, 2, LEGACY)?;
    let header = Legacy(bytes);
    let codelen = header.codelen();
    let is_possible = codelen % 4 == 0 && (1_028..=2_096_896).contains(&codelen);
    refuse_if(!is_possible, 12, LEGACY)?;
    refuse_if(!all_zero(header.zeros()), 6, LEGACY)
}

/// Indexes and verdicts of the legacy header.
fn legacy_policy(bytes: &[u8], inputs: &Inputs) -> Step {
    let indexes_fail = indexes_fail(Legacy(bytes).indexes(), inputs.keys);
    refuse_if(indexes_fail, 8, LEGACY)?;
    refuse_if(verdicts_fail(inputs.legacy), 9, LEGACY)
}

/// The three signatures and, behind them, the three indexes.
const V2_SIGNATURES: Range<usize> = 0x220..0x2e0;
const V2_INDEXES: Range<usize> = 0x2e0..0x2e3;

/// The bytes of a V2 header that must be zero: those after the fix version, and those after the
/// indexes, the places of the firmware header's sigmask and sig among them.
fn v2_zeros(header: &[u8]) -> [&[u8]; 2] {
    [&header[0x18..0x20], &header[V2_INDEXES.end..V2_HEADER]]
}

/// The V2 header and what follows it.
fn from_v2(headers: Headers, bytes: &[u8]) -> &[u8] {
    bytes.get(headers.v2()..).unwrap_or_default()
}

/// Magic, length, hdrlen, codelen and zero bytes of the V2 header. In the pair the legacy header
/// has passed its own steps before.
fn v2_shape(headers: Headers, bytes: &[u8]) -> Step {
    let rest = from_v2(headers, bytes);
    refuse_if(!rest.starts_with(b"TRZF"), 10, V2)?;
    refuse_if(rest.len() < V2_HEADER, 2, V2)?;
    let header = Firmware(rest);
    refuse_if(header.hdrlen() != V2_HEADER, 11, V2)?;
    let codelen = header.codelen();
    let is_possible = codelen % 4 == 0 && (4..=2_095_872).contains(&codelen);
    let agrees = match headers {
        Headers::V2 => true,
        Headers::Pair => codelen == Legacy(bytes).codelen() - V2_HEADER,
    };
    refuse_if(!is_possible || !agrees, 12, V2)?;
    refuse_if(!all_zero(v2_zeros(rest)), 6, V2)
}

/// Expiry, indexes and verdicts of the V2 header.
fn v2_policy(headers: Headers, bytes: &[u8], inputs: &Inputs) -> Step {
    let rest = from_v2(headers, bytes);
    refuse_if(expired(Firmware(rest).expiry(), inputs.time), 7, V2)?;
    refuse_if(indexes_fail(&rest[V2_INDEXES], inputs.keys), 8, V2)?;
    refuse_if(verdicts_fail(inputs.v2), 9, V2)
}

/// The check of one form, as a file or in a slot.
pub fn check(
    headers: Headers,
    form: Form,
    bytes: &[u8],
    inputs: &Inputs,
) -> Result<Image, Refusal> {
    refuse_if(!(3..=255).contains(&inputs.keys), 16, NO_PART)?;
    if headers == Headers::Pair {
        legacy_shape(bytes)?;
        legacy_policy(bytes, inputs)?;
    }
    v2_shape(headers, bytes)?;
    v2_policy(headers, bytes, inputs)?;

    let header = Firmware(from_v2(headers, bytes));
    let code = code_behind(headers, bytes);
    extent(form, bytes, code.end)?;
    chunks(&header, &bytes[code], ROOM_IN_FIRST, sha256)?;
    Ok(image_told(0, &header))
}

/// Where the code stands behind a V2 header that is there.
fn code_behind(headers: Headers, bytes: &[u8]) -> Range<usize> {
    let start = headers.v2() + V2_HEADER;
    start..start + Firmware(from_v2(headers, bytes)).codelen()
}

/// Where the code of checked bytes stands: nowhere after a refusal.
pub fn code(headers: Headers, bytes: &[u8], answer: &Result<Image, Refusal>) -> Range<usize> {
    match answer {
        Err(_) => 0..0,
        Ok(_) => code_behind(headers, bytes),
    }
}

/// The question of the V2 header: its steps through the zero bytes, and in the pair those of the
/// legacy header too. The signatures and the indexes are taken as zero.
pub fn v2_digest(headers: Headers, bytes: &[u8]) -> Result<[u8; 32], Refusal> {
    if headers == Headers::Pair {
        legacy_shape(bytes)?;
    }
    v2_shape(headers, bytes)?;
    let mut unsigned = from_v2(headers, bytes)[..V2_HEADER].to_vec();
    unsigned[V2_SIGNATURES].fill(0);
    unsigned[V2_INDEXES].fill(0);
    Ok(sha256(&unsigned))
}

/// The question of the legacy header: its steps through the zero bytes, and the codelen bytes must
/// be there. The V2 header among them is not judged.
pub fn legacy_digest(bytes: &[u8]) -> Result<[u8; 32], Refusal> {
    legacy_shape(bytes)?;
    let signed = Legacy(bytes).signed();
    refuse_if(bytes.len() < signed.end, 2, CODE)?;
    Ok(sha256(&bytes[signed]))
}
