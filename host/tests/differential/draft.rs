//! Well-formed images from the model's writers, with fields drawn at random. A draft keeps the
//! pieces of an image apart, so that a fault can be put into one of them.

use crate::common::random::Random;
use crate::model::image::{policy_is_possible, Form, Inputs, YES};
use crate::model::writer::{firmware_header, vendor_header, FirmwareFields, VendorFields};

/// An image in pieces, and inputs with which it is accepted.
#[derive(Clone, Debug)]
pub struct Draft {
    pub fields: VendorFields,
    pub vendor: Vec<u8>,
    pub firmware: Vec<u8>,
    pub code: Vec<u8>,
    pub tail: Vec<u8>,
    pub inputs: Inputs,
    /// How many of the bytes are lent.
    pub cut: usize,
}

impl Draft {
    /// With a few words of code, so that a check is quick.
    pub fn small(form: Form, random: &mut Random) -> Draft {
        let code = 4 + 4 * random.up_to(15);
        Draft::with_code(form, |_| code, random)
    }

    /// Of 1,540 bytes, before a tail. Its string has padding after it.
    pub fn smallest(form: Form, random: &mut Random) -> Draft {
        loop {
            let draft = Draft::with_code(form, |_| 4, random);
            if draft.v() == 512 && draft.fields.string.len() % 4 == 1 {
                return draft;
            }
        }
    }

    /// With as much code as `code_length` gives for v.
    pub fn with_code(
        form: Form,
        code_length: impl Fn(usize) -> usize,
        random: &mut Random,
    ) -> Draft {
        Draft::accepted_with(inputs(random), form, code_length, random)
    }

    /// With inputs that are given.
    pub fn accepted_with(
        inputs: Inputs,
        form: Form,
        code_length: impl Fn(usize) -> usize,
        random: &mut Random,
    ) -> Draft {
        let fields = vendor_fields(&inputs, random);
        Draft::of_fields(fields, inputs, form, code_length, random)
    }

    /// A file with inputs that are given and a vendor header of `v` bytes, which the picture fills.
    pub fn with_v(v: usize, code_length: usize, inputs: Inputs, random: &mut Random) -> Draft {
        let mut fields = vendor_fields(&inputs, random);
        fields.string.truncate(155); // the longest in 512 bytes with eight keys
        let picture_start = 33 + fields.keys.len() + fields.string.len();
        let picture = v - 65 - picture_start.next_multiple_of(4);
        fields.picture = random.bytes(picture);
        Draft::of_fields(fields, inputs, Form::File, |_| code_length, random)
    }

    fn of_fields(
        fields: VendorFields,
        inputs: Inputs,
        form: Form,
        code_length: impl Fn(usize) -> usize,
        random: &mut Random,
    ) -> Draft {
        let vendor = vendor_header(&fields).expect("the fields are good");
        let code = random.bytes(code_length(vendor.len()));
        let firmware_fields = firmware_fields(vendor.len(), &fields, &inputs, random);
        let firmware = firmware_header(&firmware_fields, &code).expect("the fields are good");
        let tail = match form {
            Form::File => Vec::new(),
            Form::Slot => vec![255; random.up_to(600)],
        };
        let cut = usize::MAX;
        Draft {
            fields,
            vendor,
            firmware,
            code,
            tail,
            inputs,
            cut,
        }
    }

    pub fn v(&self) -> usize {
        self.vendor.len()
    }

    /// All bytes. The first `length()` of them are to be lent: those behind a cut stay in place,
    /// so that a call that reads on finds what it must not see.
    pub fn bytes(&self) -> Vec<u8> {
        [&self.vendor[..], &self.firmware, &self.code, &self.tail].concat()
    }

    /// The lent bytes as a file that begin takes: at least 1,540 bytes, and whole words.
    pub fn file(&self) -> Vec<u8> {
        let mut file = self.bytes();
        file.truncate(self.length());
        file.resize((file.len() / 4 * 4).max(1_540), 255);
        file
    }

    pub fn length(&self) -> usize {
        let whole = self.v() + self.firmware.len() + self.code.len() + self.tail.len();
        whole.min(self.cut)
    }
}

/// Lends the first `length` bytes to a call, at an odd place, and asserts that the call leaves them.
pub fn lent_at_odd_place<T>(bytes: &[u8], length: usize, call: impl FnOnce(&[u8]) -> T) -> T {
    let memory = [&[0x5a; 5], bytes].concat();
    let lent = memory.clone();
    let answer = call(&lent[5..][..length]);
    assert!(lent == memory, "a call wrote to the bytes it was lent");
    answer
}

/// The first 544 bytes of a header that is laid out as the firmware header: up to the hashes, of
/// which the first are given and the others are zero. Both versions are drawn.
pub fn header_up_to_hashes(
    magic: &[u8; 4],
    expiry: u32,
    codelen: usize,
    hashes: &[[u8; 32]],
    random: &mut Random,
) -> Vec<u8> {
    let mut header = magic.to_vec();
    header.extend(1_024_u32.to_le_bytes());
    header.extend(expiry.to_le_bytes());
    header.extend((codelen as u32).to_le_bytes());
    header.extend(random.word().to_le_bytes()); // version
    header.extend(random.word().to_le_bytes()); // fix version
    header.extend([0; 8]);
    header.extend(hashes.as_flattened());
    header.resize(544, 0);
    header
}

/// The length of a slot that holds such a file, with up to two pages to spare.
pub fn slot_length(file_length: usize, random: &mut Random) -> usize {
    file_length.next_multiple_of(4_096) + 4_096 * random.up_to(2)
}

/// Any time, and often one at an edge.
pub fn time(random: &mut Random) -> u32 {
    let any = random.word();
    random.pick(&[0, 1, 100, u32::MAX - 1, u32::MAX, any])
}

/// Inputs that a check can accept with.
pub fn inputs(random: &mut Random) -> Inputs {
    let n = 1 + random.up_to(7) as u32;
    let m = 1 + random.up_to(n as usize - 1) as u32;
    Inputs {
        time: time(random),
        m,
        n,
        vendor: YES,
        firmware: YES,
    }
}

/// A verdict of no: any word but 1.
pub fn no(random: &mut Random) -> u32 {
    let any = random.word() | 2;
    random.pick(&[0, 0, 2, 3, 0x100, 0x101, 0x0100_0001, u32::MAX, any])
}

/// Inputs of any kind: now and then an impossible policy or a verdict of no.
pub fn any_inputs(random: &mut Random) -> Inputs {
    let mut inputs = inputs(random);
    let any = random.word();
    if random.one_in(8) {
        inputs.m = random.pick(&[0, 1, 8, 9, any]);
    }
    if random.one_in(8) {
        inputs.n = random.pick(&[0, 1, 9, 256, any]);
    }
    for verdict in [&mut inputs.vendor, &mut inputs.firmware] {
        if random.one_in(8) {
            *verdict = no(random);
        }
    }
    inputs
}

/// A mask with exactly `m` ones, all below bit `n`.
pub fn good_mask(m: u32, n: u32, random: &mut Random) -> u8 {
    let mut mask = 0_u8;
    while mask.count_ones() < m {
        mask |= 1 << random.up_to(n as usize - 1);
    }
    mask
}

/// A good mask or any mask. Where `m` of `n` is not possible there is no good one.
pub fn likely_mask(m: u32, n: u32, random: &mut Random) -> u8 {
    match policy_is_possible(m, n) && random.one_in(2) {
        true => good_mask(m, n, random),
        false => random.byte(),
    }
}

/// Never, or not before `time`.
pub fn expiry(time: u32, random: &mut Random) -> u32 {
    let later = time + random.up_to((u32::MAX - time) as usize) as u32;
    random.pick(&[0, time, later])
}

/// Expiries at their edges, each with times at their edges and around it. The last says whether the
/// header is still good.
pub fn expiries_and_times() -> Vec<(u32, u32, bool)> {
    let edges = [
        0,
        1,
        2,
        100,
        0x7fff_ffff,
        0x8000_0000,
        u32::MAX - 1,
        u32::MAX,
    ];
    let mut all = Vec::new();
    for expiry in edges {
        let around = [expiry.wrapping_sub(1), expiry, expiry.wrapping_add(1)];
        for time in edges.into_iter().chain(around) {
            all.push((expiry, time, expiry == 0 || time <= expiry));
        }
    }
    all
}

fn vendor_fields(inputs: &Inputs, random: &mut Random) -> VendorFields {
    let n = 1 + random.up_to(7) as u32;
    let any_string = random.up_to(255);
    let string = random.pick(&[0, 1, 2, 3, 4, 5, 155, 255, any_string]);
    let picture = match random.one_in(64) {
        true => random.up_to(64_900),
        false => random.up_to(700),
    };
    VendorFields {
        expiry: expiry(inputs.time, random),
        major: random.byte().into(),
        minor: random.byte().into(),
        m: 1 + random.up_to(n as usize - 1) as u32,
        n,
        vtrust: random.word() & 0xffff,
        sigmask: good_mask(inputs.m, inputs.n, random).into(),
        keys: random.bytes(32 * n as usize),
        string: random.bytes(string),
        picture: random.bytes(picture),
        sig: sig(random),
    }
}

fn firmware_fields(
    v: usize,
    vendor: &VendorFields,
    inputs: &Inputs,
    random: &mut Random,
) -> FirmwareFields {
    FirmwareFields {
        v: v as u32,
        expiry: expiry(inputs.time, random),
        version: random.word().to_le_bytes(),
        fix: random.word().to_le_bytes(),
        sigmask: good_mask(vendor.m, vendor.n, random).into(),
        sig: sig(random),
    }
}

pub fn sig(random: &mut Random) -> [u8; 64] {
    random.bytes(64).try_into().expect("64 bytes")
}
