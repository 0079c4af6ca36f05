//! The check of a file and of a slot with the parts handed back (specification, 6), the two digest
//! questions (5) with what else a chip needs, and the vendor trust reading (7). Each step is judged
//! only where all before it hold.

use super::blake2s::blake2s;
use super::layout::{
    chunk, hash_of, room_in_first, word, Firmware, Hash, Vendor, CHUNKS, FIRMWARE_HEADER, LARGEST,
    SEAL,
};
use std::ops::Range;

/// The answer of the first failing step.
#[derive(Clone, Copy, Debug, PartialEq, Eq)]
pub struct Refusal {
    pub number: u32,
    pub part: u32,
    pub chunk: u32,
}

/// A refusal that names no chunk.
pub fn refusal(number: u32, part: u32) -> Refusal {
    let chunk = 0;
    Refusal {
        number,
        part,
        chunk,
    }
}

/// A verdict that is yes. Any other word is no.
pub const YES: u32 = 1;

/// What the check takes besides the bytes: the time, a key policy of `m` of `n` for the vendor
/// header, and the verdict on each header's signature.
#[derive(Clone, Copy, Debug, PartialEq, Eq)]
pub struct Inputs {
    pub time: u32,
    pub m: u32,
    pub n: u32,
    pub vendor: u32,
    pub firmware: u32,
}

/// What an acceptance tells.
#[derive(Clone, Copy, Debug, PartialEq, Eq)]
pub struct Image {
    pub v: u32,
    pub codelen: u32,
    pub version: [u8; 4],
    pub fix: [u8; 4],
}

#[derive(Clone, Copy, Debug, PartialEq, Eq, PartialOrd, Ord)]
pub enum Form {
    File,
    Slot,
}

pub(super) const NO_PART: u32 = 0;
const VENDOR: u32 = 1;
const FIRMWARE: u32 = 2;
pub(super) const CODE: u32 = 3;

pub(super) type Step = Result<(), Refusal>;

pub(super) fn refuse_if(fails: bool, number: u32, part: u32) -> Step {
    match fails {
        true => Err(refusal(number, part)),
        false => Ok(()),
    }
}

/// S2, and S6 of the header's own numbers.
pub fn policy_is_possible(m: u32, n: u32) -> bool {
    1 <= m && m <= n && n <= 8
}

/// S4, and the firmware writer's 3.
pub fn vendor_length_is_possible(v: usize) -> bool {
    v % 512 == 0 && (512..=65_536).contains(&v)
}

/// S16, and the firmware writer's 12.
pub fn code_length_is_possible(codelen: usize, v: usize) -> bool {
    codelen != 0 && codelen % 4 == 0 && codelen <= LARGEST - FIRMWARE_HEADER - v
}

/// S9 and S18: a header is good up to and with its expiry, and 0 is never.
pub(super) fn expired(expiry: u32, time: u32) -> bool {
    expiry != 0 && time > expiry
}

/// S10 and S19: exactly m signers, all of them keys that are there. The mask is widened first, so
/// that n = 8 shifts all of it out.
pub(super) fn mask_fails(sigmask: u8, m: u32, n: u32) -> bool {
    let beyond = u32::from(sigmask) >> n;
    beyond != 0 || sigmask.count_ones() != m
}

pub(super) fn all_zero(runs: [&[u8]; 2]) -> bool {
    runs.iter().all(|run| run.iter().all(|byte| *byte == 0))
}

/// S1.
fn vendor_magic(bytes: &[u8]) -> Step {
    refuse_if(!bytes.starts_with(b"TRZV"), 1, VENDOR)
}

/// S3 to S8.
fn vendor_shape(bytes: &[u8]) -> Step {
    refuse_if(bytes.len() < 512, 2, VENDOR)?; // S3
    let header = Vendor(bytes);
    let v = header.hdrlen();
    refuse_if(!vendor_length_is_possible(v), 3, VENDOR)?; // S4
    refuse_if(bytes.len() < v, 2, VENDOR)?; // S5
    let (m, n) = (header.vsig_m(), header.vsig_n());
    refuse_if(!policy_is_possible(m, n), 4, VENDOR)?; // S6
    refuse_if(header.picture_start() + SEAL > v, 5, VENDOR)?; // S7
    refuse_if(!all_zero(header.zeros()), 6, VENDOR) // S8
}

/// S9 to S11.
fn vendor_policy(bytes: &[u8], inputs: &Inputs) -> Step {
    let header = Vendor(bytes);
    refuse_if(expired(header.expiry(), inputs.time), 7, VENDOR)?; // S9
    refuse_if(mask_fails(header.sigmask(), inputs.m, inputs.n), 8, VENDOR)?; // S10
    refuse_if(inputs.vendor != YES, 9, VENDOR) // S11
}

/// S12 to S17.
fn firmware_shape(bytes: &[u8]) -> Step {
    let v = Vendor(bytes).hdrlen();
    refuse_if(bytes.len() < v + FIRMWARE_HEADER, 2, FIRMWARE)?; // S12
    let header = Firmware(&bytes[v..]);
    refuse_if(!header.0.starts_with(b"TRZF"), 10, FIRMWARE)?; // S13
    refuse_if(header.hdrlen() != FIRMWARE_HEADER, 11, FIRMWARE)?; // S14
    refuse_if(room_in_first(v) == 0, 17, FIRMWARE)?; // S15
    refuse_if(!code_length_is_possible(header.codelen(), v), 12, FIRMWARE)?; // S16
    refuse_if(!all_zero(header.zeros()), 6, FIRMWARE) // S17
}

/// S18 to S20.
fn firmware_policy(bytes: &[u8], inputs: &Inputs) -> Step {
    let vendor = Vendor(bytes);
    let header = Firmware(&bytes[vendor.hdrlen()..]);
    refuse_if(expired(header.expiry(), inputs.time), 7, FIRMWARE)?; // S18
    let mask_fails = mask_fails(header.sigmask(), vendor.vsig_m(), vendor.vsig_n());
    refuse_if(mask_fails, 8, FIRMWARE)?; // S19
    refuse_if(inputs.firmware != YES, 9, FIRMWARE) // S20
}

/// Where the code stands.
fn code(bytes: &[u8]) -> Range<usize> {
    let v = Vendor(bytes).hdrlen();
    let start = v + FIRMWARE_HEADER;
    start..start + Firmware(&bytes[v..]).codelen()
}

/// S21 and S22, of code that ends at `end`.
pub(super) fn extent(form: Form, bytes: &[u8], end: usize) -> Step {
    refuse_if(bytes.len() < end, 2, CODE)?; // S21
    let after = &bytes[end..];
    let follows = match form {
        Form::File => !after.is_empty(),
        Form::Slot => after.iter().any(|byte| *byte != 255),
    };
    refuse_if(follows, 13, CODE) // S22
}

/// S23, where chunk 1 has room for `room` bytes.
pub(super) fn chunks(header: &Firmware, code: &[u8], room: usize, hash: Hash) -> Step {
    let hashes = header.hashes();
    for k in 1..=CHUNKS {
        let chunk = chunk(code, room, k);
        if hashes[k - 1] != hash_of(chunk, hash) {
            let number = if chunk.is_empty() { 15 } else { 14 };
            return Err(Refusal {
                number,
                part: CODE,
                chunk: word(k),
            });
        }
    }
    Ok(())
}

/// The check of a file or a slot.
pub fn check(form: Form, bytes: &[u8], inputs: &Inputs) -> Result<Image, Refusal> {
    vendor_magic(bytes)?; // S1
    refuse_if(!policy_is_possible(inputs.m, inputs.n), 16, NO_PART)?; // S2
    vendor_shape(bytes)?;
    vendor_policy(bytes, inputs)?;
    firmware_shape(bytes)?;
    firmware_policy(bytes, inputs)?;

    let v = Vendor(bytes).hdrlen();
    let header = Firmware(&bytes[v..]);
    let code = code(bytes);
    extent(form, bytes, code.end)?;
    chunks(&header, &bytes[code], room_in_first(v), blake2s)?;
    Ok(image_told(v, &header))
}

/// What the acceptance of an image with this header in front of its code tells.
pub(super) fn image_told(v: usize, header: &Firmware) -> Image {
    Image {
        v: word(v),
        codelen: word(header.codelen()),
        version: header.version(),
        fix: header.fix(),
    }
}

/// Where the parts of a checked image stand: each is empty after a refusal.
#[derive(Clone, Debug, Default, PartialEq, Eq)]
pub struct Parts {
    pub string: Range<usize>,
    pub picture: Range<usize>,
    pub code: Range<usize>,
}

pub fn parts(bytes: &[u8], answer: &Result<Image, Refusal>) -> Parts {
    match answer {
        Err(_) => Parts::default(),
        Ok(_) => Parts {
            string: Vendor(bytes).string(),
            picture: Vendor(bytes).picture(),
            code: code(bytes),
        },
    }
}

/// The digest to be signed: that of the whole header, its last 65 bytes taken as zero.
pub(super) fn digest_to_sign(header: &[u8]) -> [u8; 32] {
    let mut unsigned = header.to_vec();
    let seal = header.len() - SEAL;
    unsigned[seal..].fill(0);
    blake2s(&unsigned)
}

/// The question of the vendor header: S1 and S3 to S8.
pub fn vendor_digest(bytes: &[u8]) -> Result<[u8; 32], Refusal> {
    vendor_magic(bytes)?;
    vendor_shape(bytes)?;
    Ok(digest_to_sign(&bytes[..Vendor(bytes).hdrlen()]))
}

/// The question of the firmware header: S12 to S17 as well.
pub fn firmware_digest(bytes: &[u8]) -> Result<[u8; 32], Refusal> {
    vendor_magic(bytes)?;
    vendor_shape(bytes)?;
    firmware_shape(bytes)?;
    let v = Vendor(bytes).hdrlen();
    Ok(digest_to_sign(&bytes[v..v + FIRMWARE_HEADER]))
}

/// What a chip needs beside a digest to be signed. All is empty where the digest is refused.
#[derive(Clone, Debug, Default, PartialEq, Eq)]
pub struct Signature {
    pub sigmask: Range<usize>,
    pub sig: Range<usize>,
    /// The vendor's keys. Those of the vendor header itself are the caller's own, and so are their
    /// m and n.
    pub keys: Range<usize>,
    pub m: u32,
    pub n: u32,
}

/// The sigmask comes before the sig.
fn sealed(seal: Range<usize>) -> Signature {
    Signature {
        sigmask: seal.start..seal.start + 1,
        sig: seal.start + 1..seal.end,
        ..Signature::default()
    }
}

pub fn vendor_signature(bytes: &[u8]) -> Signature {
    match vendor_digest(bytes) {
        Err(_) => Signature::default(),
        Ok(_) => sealed(Vendor(bytes).seal()),
    }
}

pub fn firmware_signature(bytes: &[u8]) -> Signature {
    if firmware_digest(bytes).is_err() {
        return Signature::default();
    }
    let vendor = Vendor(bytes);
    let end = vendor.hdrlen() + FIRMWARE_HEADER;
    Signature {
        keys: vendor.keys(),
        m: vendor.vsig_m(),
        n: vendor.vsig_n(),
        ..sealed(end - SEAL..end)
    }
}

/// The vendor trust reading: what is active, and how many seconds to wait.
#[derive(Clone, Copy, Debug, PartialEq, Eq)]
pub struct Trust {
    pub seconds: u32,
    pub red: bool,
    pub click: bool,
    pub string: bool,
    pub secret: bool,
}

/// A feature is active where its bit is unset. Bits 8 to 15 have no reading.
pub fn trust(vtrust: u16) -> Trust {
    let active = |bit: u32| vtrust & (1 << bit) == 0;
    Trust {
        seconds: (0..4).filter(|bit| active(*bit)).map(|bit| 1 << bit).sum(),
        red: active(4),
        click: active(5),
        string: active(6),
        secret: active(7),
    }
}

/// The reading of lent bytes, whose vtrust stands at 16. A byte past the end counts as 0.
pub fn trust_of(bytes: &[u8]) -> Trust {
    let byte = |at: usize| bytes.get(at).copied().unwrap_or(0);
    trust(u16::from_le_bytes([byte(16), byte(17)]))
}
