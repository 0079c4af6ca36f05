//! Areas with a well-formed loader, with fields drawn at random. A draft keeps the pieces of an area
//! apart, so that a fault can be put into one of them.

use crate::common::random::Random;
use crate::draft::{any_inputs, expiry, good_mask, header_up_to_hashes, inputs, sig};
use crate::model::blake2s::blake2s;
use crate::model::image;
use crate::model::loader::{Area, Inputs};

pub const AREAS: [Area; 2] = [Area::Card, Area::Internal];

/// Bytes of the longest code.
pub const LONGEST_CODE: usize = 130_048;

/// An area in pieces, and inputs with which it is accepted.
#[derive(Clone, Debug)]
pub struct AreaDraft {
    pub area: Area,
    pub header: Vec<u8>,
    pub code: Vec<u8>,
    pub tail: Vec<u8>,
    pub inputs: Inputs,
    /// How many of the bytes are lent.
    pub cut: usize,
}

impl AreaDraft {
    /// With a few words of code, so that a check is quick.
    pub fn small(area: Area, random: &mut Random) -> AreaDraft {
        let inputs = loader_inputs(random);
        AreaDraft::accepted_with(inputs, area, random)
    }

    /// The same with inputs that are given.
    pub fn accepted_with(inputs: Inputs, area: Area, random: &mut Random) -> AreaDraft {
        let length = 4 + 4 * random.up_to(15);
        AreaDraft::with_code(length, inputs, area, random)
    }

    /// With so many bytes of code, which may be too many or too few.
    pub fn with_code(length: usize, inputs: Inputs, area: Area, random: &mut Random) -> AreaDraft {
        let code = random.bytes(length);
        let any = random.up_to(600);
        AreaDraft {
            area,
            header: header(&code, &inputs, random),
            code,
            tail: vec![filler(area); random.pick(&[0, 1, any])],
            inputs,
            cut: usize::MAX,
        }
    }

    /// All bytes. The first `length()` of them are to be lent: those behind a cut stay in place,
    /// so that a call that reads on finds what it must not see.
    pub fn bytes(&self) -> Vec<u8> {
        [&self.header[..], &self.code, &self.tail].concat()
    }

    pub fn length(&self) -> usize {
        let whole = self.header.len() + self.code.len() + self.tail.len();
        whole.min(self.cut)
    }
}

/// What stands after the code.
pub fn filler(area: Area) -> u8 {
    match area {
        Area::Card => 0,
        Area::Internal => 255,
    }
}

/// The verdict on the area.
pub fn verdict(area: Area, inputs: &mut Inputs) -> &mut u32 {
    match area {
        Area::Card => &mut inputs.card,
        Area::Internal => &mut inputs.internal,
    }
}

fn of_loader(inputs: image::Inputs) -> Inputs {
    Inputs {
        time: inputs.time,
        m: inputs.m,
        n: inputs.n,
        card: inputs.vendor,
        internal: inputs.firmware,
    }
}

/// Inputs that a check can accept with.
pub fn loader_inputs(random: &mut Random) -> Inputs {
    of_loader(inputs(random))
}

/// Inputs of any kind: now and then an impossible policy or a verdict of no.
pub fn any_loader_inputs(random: &mut Random) -> Inputs {
    of_loader(any_inputs(random))
}

/// The header for this code. Its length in the header is the code's, whatever that is.
fn header(code: &[u8], inputs: &Inputs, random: &mut Random) -> Vec<u8> {
    let expiry = expiry(inputs.time, random);
    let mut header = header_up_to_hashes(b"TRZB", expiry, code.len(), &[blake2s(code)], random);
    header.extend([0; 415]);
    header.push(good_mask(inputs.m, inputs.n, random));
    header.extend(sig(random));
    header
}
