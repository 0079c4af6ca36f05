//! Fields for both writers, most of them good, and both writers run on them: the archive's and the
//! model's, on the same memory.

use crate::archive::writer;
use crate::common::random::Random;
use crate::draft::sig;
use crate::model::layout::Firmware;
use crate::model::writer::{self as model, FirmwareFields, VendorFields};

/// Bytes before and after an output, which stands at an odd place.
const AROUND: usize = 47;

/// Lengths of an output around the length that is needed.
fn out_length(needed: usize, random: &mut Random) -> usize {
    let any = random.up_to(needed + 100);
    random.pick(&[needed, needed, needed + 1, needed - 1, 0, any])
}

/// Runs both writers on the same memory, and compares what they answer and all of the memory.
/// Gives the header that was written, or the refusal.
fn compare(
    length: usize,
    random: &mut Random,
    by_archive: impl Fn(&mut [u8]) -> Result<usize, u32>,
    by_model: impl Fn(&mut [u8]) -> Result<usize, u32>,
) -> Result<Vec<u8>, u32> {
    let mut memory = random.bytes(AROUND + length + AROUND);
    let mut expected = memory.clone();
    let answer = by_archive(&mut memory[AROUND..AROUND + length]);
    assert_eq!(answer, by_model(&mut expected[AROUND..AROUND + length]));
    assert!(memory == expected, "the output of {answer:?}");
    answer.map(|written| memory[AROUND..AROUND + written].to_vec())
}

pub fn compare_vendor(fields: &VendorFields, random: &mut Random) -> Result<Vec<u8>, u32> {
    let needed = model::vendor_header(fields).map_or(512, |header| header.len());
    let length = out_length(needed, random);
    compare(
        length,
        random,
        |out| writer::write_vendor(fields, out),
        |out| model::write_vendor(fields, out),
    )
}

pub fn compare_firmware(
    fields: &FirmwareFields,
    code: &[u8],
    random: &mut Random,
) -> Result<Vec<u8>, u32> {
    let length = out_length(1_024, random);
    compare(
        length,
        random,
        |out| writer::write_firmware(fields, code, out),
        |out| model::write_firmware(fields, code, out),
    )
}

/// Lengths of a picture around those at which v, for keys and a string of these lengths, steps up
/// from 512 or is too large.
pub fn picture_length(keys: usize, string: usize, random: &mut Random) -> usize {
    let start = (33 + keys + string).next_multiple_of(4);
    let to_the_edge = 512_usize.saturating_sub(start + 65);
    let to_the_limit = 65_536 - 65 - start;
    let any = random.up_to(1_500);
    match random.one_in(16) {
        true => random.pick(&[
            to_the_limit,
            to_the_limit + 1,
            to_the_limit - 1,
            65_536,
            70_000,
        ]),
        false => random.pick(&[0, 1, to_the_edge, to_the_edge + 1, any, any]),
    }
}

/// A number of at most `limit`, and now and then a word above it.
pub fn field(limit: u32, random: &mut Random) -> u32 {
    let any = random.word();
    match random.one_in(64) {
        true => random.pick(&[limit + 1, limit + 2, u32::MAX, any]),
        false => any & limit,
    }
}

/// The keys and the string are sometimes off by one.
pub fn vendor_fields(random: &mut Random) -> VendorFields {
    let (m, n) = random.pick(&[
        (1, 1),
        (1, 2),
        (2, 3),
        (8, 8),
        (1, 8),
        (0, 1),
        (3, 2),
        (1, 9),
        (0, 0),
        (257, 257),
        (1, 256),
        (1, u32::MAX),
    ]);
    let keys = 32 * n.min(300) as usize;
    let keys = random.pick(&[keys, keys, keys, keys, keys + 1, keys.saturating_sub(1), 0]);
    let any = random.up_to(255);
    let string = random.pick(&[0, 1, 2, 3, 4, 255, any, any, 256, 300]);
    let picture = picture_length(keys, string, random);
    VendorFields {
        expiry: random.word(),
        major: field(255, random),
        minor: field(255, random),
        m,
        n,
        vtrust: field(65_535, random),
        sigmask: field(255, random),
        keys: random.bytes(keys),
        string: random.bytes(string),
        picture: random.bytes(picture),
        sig: sig(random),
    }
}

/// Vendor lengths, of which half are good.
pub fn v(random: &mut Random) -> u32 {
    let good = 512 * (1 + random.up_to(127)) as u32;
    let any = random.word();
    random.pick(&[512, 512, 65_536, good, good, 0, 511, 513, 66_048, any])
}

pub fn firmware_fields(random: &mut Random) -> FirmwareFields {
    FirmwareFields {
        v: v(random),
        expiry: random.word(),
        version: random.word().to_le_bytes(),
        fix: random.word().to_le_bytes(),
        sigmask: field(255, random),
        sig: sig(random),
    }
}

/// The firmware writer's fields, read from an image.
pub fn firmware_of(bytes: &[u8], v: usize) -> FirmwareFields {
    let header = Firmware(&bytes[v..]);
    FirmwareFields {
        v: v as u32,
        expiry: header.expiry(),
        version: header.version(),
        fix: header.fix(),
        sigmask: header.sigmask().into(),
        sig: header.0[960..1_024].try_into().expect("64 bytes"),
    }
}
