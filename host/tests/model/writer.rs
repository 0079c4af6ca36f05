//! The writers of both headers (specification, 8): their refusals in order, and the rule for the
//! output. A refused writer changes nothing. One that succeeds writes the header at the output's
//! start, and the bytes past it stay.

use super::blake2s::blake2s;
use super::image::{code_length_is_possible, policy_is_possible, vendor_length_is_possible};
use super::layout::{chunk, hash_of, room_in_first, word, CHUNKS, FIRMWARE_HEADER, SEAL};

/// What the vendor writer takes. Numbers are words, and may be too large for their fields.
#[derive(Clone, Debug)]
pub struct VendorFields {
    pub expiry: u32,
    pub major: u32,
    pub minor: u32,
    pub m: u32,
    pub n: u32,
    pub vtrust: u32,
    pub sigmask: u32,
    pub keys: Vec<u8>,
    pub string: Vec<u8>,
    pub picture: Vec<u8>,
    pub sig: [u8; 64],
}

/// What the firmware writer takes besides the lent code.
#[derive(Clone, Debug)]
pub struct FirmwareFields {
    pub v: u32,
    pub expiry: u32,
    pub version: [u8; 4],
    pub fix: [u8; 4],
    pub sigmask: u32,
    pub sig: [u8; 64],
}

fn refuse_if(fails: bool, number: u32) -> Result<(), u32> {
    match fails {
        true => Err(number),
        false => Ok(()),
    }
}

fn write(header: &[u8], out: &mut [u8]) -> Result<usize, u32> {
    refuse_if(out.len() < header.len(), 21)?;
    out[..header.len()].copy_from_slice(header);
    Ok(header.len())
}

fn byte(number: u32) -> u8 {
    u8::try_from(number).expect("at most 255")
}

/// The vendor header up to its sigmask, without the length and the zeros after the picture.
fn vendor_body(fields: &VendorFields) -> Vec<u8> {
    let mut body = b"TRZV\0\0\0\0".to_vec();
    body.extend(fields.expiry.to_le_bytes());
    body.extend([fields.major, fields.minor, fields.m, fields.n].map(byte));
    body.extend(&fields.vtrust.to_le_bytes()[..2]);
    body.extend([0; 14]);
    body.extend(&fields.keys);
    body.push(u8::try_from(fields.string.len()).expect("at most 255"));
    body.extend(&fields.string);
    body.resize(body.len().next_multiple_of(4), 0);
    body.extend(&fields.picture);
    body
}

/// The vendor header, of v bytes.
pub fn vendor_header(fields: &VendorFields) -> Result<Vec<u8>, u32> {
    let bytes = [fields.major, fields.minor, fields.sigmask];
    let too_large = bytes.iter().any(|number| *number > 255) || fields.vtrust > 65_535;
    refuse_if(too_large, 28)?;
    refuse_if(!policy_is_possible(fields.m, fields.n), 4)?; // as S6
    let keys_are_wrong = fields.keys.len() != 32 * fields.n as usize;
    refuse_if(keys_are_wrong || fields.string.len() > 255, 20)?;

    let mut header = vendor_body(fields);
    let v = (header.len() + SEAL).next_multiple_of(512);
    refuse_if(v > 65_536, 3)?;
    header[4..8].copy_from_slice(&word(v).to_le_bytes());
    header.resize(v - SEAL, 0);
    header.push(byte(fields.sigmask));
    header.extend(fields.sig);
    Ok(header)
}

/// The length v of the header written to `out`, or a refusal.
pub fn write_vendor(fields: &VendorFields, out: &mut [u8]) -> Result<usize, u32> {
    write(&vendor_header(fields)?, out)
}

/// The firmware header, of 1,024 bytes.
pub fn firmware_header(fields: &FirmwareFields, code: &[u8]) -> Result<Vec<u8>, u32> {
    refuse_if(fields.sigmask > 255, 28)?;
    let v = fields.v as usize;
    refuse_if(!vendor_length_is_possible(v), 3)?; // as S4
    refuse_if(!code_length_is_possible(code.len(), v), 12)?; // as S16

    let mut header = b"TRZF".to_vec();
    header.extend(word(FIRMWARE_HEADER).to_le_bytes());
    header.extend(fields.expiry.to_le_bytes());
    header.extend(word(code.len()).to_le_bytes());
    header.extend(fields.version);
    header.extend(fields.fix);
    header.extend([0; 8]);
    for k in 1..=CHUNKS {
        header.extend(hash_of(chunk(code, room_in_first(v), k), blake2s));
    }
    header.extend([0; 415]);
    header.push(byte(fields.sigmask));
    header.extend(fields.sig);
    Ok(header)
}

/// The length 1,024 of the header written to `out`, or a refusal.
pub fn write_firmware(fields: &FirmwareFields, code: &[u8], out: &mut [u8]) -> Result<usize, u32> {
    write(&firmware_header(fields, code)?, out)
}
