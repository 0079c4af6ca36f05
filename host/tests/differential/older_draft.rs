//! Well-formed images of the older model, with fields drawn at random. A draft keeps the pieces of
//! an image apart, so that a fault can be put into one of them.

use crate::common::random::Random;
use crate::draft::{expiry, header_up_to_hashes, no, time};
use crate::model::image::{Form, YES};
use crate::model::layout::{chunk, hash_of};
use crate::model::older::{Headers, Inputs, ROOM_IN_FIRST};
use crate::model::sha256::sha256;

/// The headers of an image, and whether it is a file or in a slot. Each kind has a check.
pub type Kind = (Headers, Form);

pub const KINDS: [Kind; 4] = [
    (Headers::V2, Form::File),
    (Headers::V2, Form::Slot),
    (Headers::Pair, Form::File),
    (Headers::Pair, Form::Slot),
];

/// Bytes of the longest code.
pub const LONGEST_CODE: usize = 2_095_872;

/// Where the indexes stand in each header.
pub const LEGACY_INDEXES: usize = 8;
pub const V2_INDEXES: usize = 0x2e0;

/// An image in pieces, and inputs with which it is accepted.
#[derive(Clone, Debug)]
pub struct OlderDraft {
    pub kind: Kind,
    /// Nothing where the V2 header stands by itself.
    pub legacy: Vec<u8>,
    pub v2: Vec<u8>,
    pub code: Vec<u8>,
    pub tail: Vec<u8>,
    pub inputs: Inputs,
    /// How many of the bytes are lent.
    pub cut: usize,
}

impl OlderDraft {
    /// With a few words of code, so that a check is quick.
    pub fn small(kind: Kind, random: &mut Random) -> OlderDraft {
        let length = 4 + 4 * random.up_to(15);
        OlderDraft::with_code(length, kind, random)
    }

    /// With so many bytes of code, which may be too many or too few.
    pub fn with_code(length: usize, kind: Kind, random: &mut Random) -> OlderDraft {
        let (headers, form) = kind;
        let inputs = older_inputs(headers, random);
        let code = random.bytes(length);
        let legacy = match headers {
            Headers::V2 => Vec::new(),
            Headers::Pair => legacy_header(length, inputs.keys, random),
        };
        let tail = match form {
            Form::File => Vec::new(),
            Form::Slot => vec![255; random.up_to(600)],
        };
        OlderDraft {
            kind,
            legacy,
            v2: v2_header(&code, &inputs, random),
            code,
            tail,
            inputs,
            cut: usize::MAX,
        }
    }

    /// All bytes. The first `length()` of them are to be lent: those behind a cut stay in place,
    /// so that a call that reads on finds what it must not see.
    pub fn bytes(&self) -> Vec<u8> {
        [&self.legacy[..], &self.v2, &self.code, &self.tail].concat()
    }

    pub fn length(&self) -> usize {
        let headers = self.legacy.len() + self.v2.len();
        (headers + self.code.len() + self.tail.len()).min(self.cut)
    }
}

/// Three keys of the sheet, each another.
fn good_indexes(keys: u32, random: &mut Random) -> [u8; 3] {
    loop {
        let any = [(); 3].map(|()| 1 + random.up_to(keys as usize - 1) as u8);
        let [i, j, k] = random.pick(&[[1, 2, 3], [3, 1, 2], any, any]);
        if i != j && i != k && j != k {
            return [i, j, k];
        }
    }
}

fn legacy_header(code: usize, keys: u32, random: &mut Random) -> Vec<u8> {
    let mut header = b"TRZR".to_vec();
    header.extend((1_024 + code as u32).to_le_bytes());
    header.extend(good_indexes(keys, random));
    header.extend([0; 1 + 52]);
    header.extend(random.bytes(3 * 64));
    header
}

/// The hashes of code, as far as it reaches.
fn hashes(code: &[u8]) -> Vec<[u8; 32]> {
    let chunks = (1..=16).map(|k| chunk(code, ROOM_IN_FIRST, k));
    chunks.map(|chunk| hash_of(chunk, sha256)).collect()
}

fn v2_header(code: &[u8], inputs: &Inputs, random: &mut Random) -> Vec<u8> {
    let expiry = expiry(inputs.time, random);
    let mut header = header_up_to_hashes(b"TRZF", expiry, code.len(), &hashes(code), random);
    header.extend(random.bytes(3 * 64));
    header.extend(good_indexes(inputs.keys, random));
    header.resize(1_024, 0);
    header
}

/// Inputs that a check can accept with. Verdicts on a legacy header that is not there are yes or no.
fn older_inputs(headers: Headers, random: &mut Random) -> Inputs {
    let any = 3 + random.up_to(252) as u32;
    let legacy = match headers {
        Headers::V2 => [(); 3].map(|()| random.pick(&[YES, 0, 2])),
        Headers::Pair => [YES; 3],
    };
    Inputs {
        time: time(random),
        keys: random.pick(&[3, 4, 255, any]),
        legacy,
        v2: [YES; 3],
    }
}

/// A number of keys that no sheet has. The low 8 bits of some are such as a sheet has.
pub fn impossible_sheet(random: &mut Random) -> u32 {
    let any = random.word() | 1 << (8 + random.up_to(23));
    random.pick(&[0, 1, 2, 256, 257, 259, 511, 0x0100_0003, u32::MAX, any])
}

/// Inputs of any kind: now and then an impossible key sheet or a verdict of no.
pub fn any_older_inputs(random: &mut Random) -> Inputs {
    let mut inputs = older_inputs(Headers::Pair, random);
    if random.one_in(8) {
        inputs.keys = impossible_sheet(random);
    }
    for verdict in inputs.legacy.iter_mut().chain(&mut inputs.v2) {
        if random.one_in(24) {
            *verdict = no(random);
        }
    }
    inputs
}
