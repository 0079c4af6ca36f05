//! The safe wrapper says what the model says: it carries values to the archive and back, and adds
//! nothing but their types.

use crate::common::random::Random;
use crate::draft::Draft;
use crate::faults::faulty_draft;
use crate::model::image::{self as model, Form, Inputs, YES};
use crate::model::layout::Firmware;
use crate::model::writer;
use crate::tally::{cases, step, Tally, ACCEPTED, STEPS};
use thimmorel::{
    FirmwareHeader, Image, Part, Reason, Refusal, Signature, Trust, VendorHeader, Version,
};

pub fn inputs(inputs: &Inputs) -> thimmorel::Inputs {
    thimmorel::Inputs {
        time: inputs.time,
        m: inputs.m,
        n: inputs.n,
        vendor_verdict: inputs.vendor == YES,
        firmware_verdict: inputs.firmware == YES,
    }
}

pub fn refusal(refusal: model::Refusal) -> Refusal {
    Refusal {
        reason: Reason::from_number(refusal.number).expect("a refusal is not 0"),
        part: match refusal.part {
            0 => None,
            1 => Some(Part::VendorHeader),
            2 => Some(Part::FirmwareHeader),
            _ => Some(Part::Code),
        },
        chunk: Some(refusal.chunk).filter(|chunk| *chunk != 0),
    }
}

/// A refusal that is a number alone.
pub fn alone(number: u32) -> Refusal {
    refusal(model::Refusal {
        number,
        part: 0,
        chunk: 0,
    })
}

pub fn version([major, minor, patch, build]: [u8; 4]) -> Version {
    Version {
        major,
        minor,
        patch,
        build,
    }
}

/// The model's acceptance in the wrapper's types.
fn image<'a>(bytes: &'a [u8], told: &model::Image) -> Image<'a> {
    let parts = model::parts(bytes, &Ok(*told));
    Image {
        vendor_length: told.v as usize,
        version: version(told.version),
        fix_version: version(told.fix),
        string: &bytes[parts.string],
        picture: &bytes[parts.picture],
        code: &bytes[parts.code],
    }
}

/// Asserts that a signature is the one at the places that the model tells.
pub fn assert_signature(found: Option<Signature>, bytes: &[u8], places: &model::Signature) {
    if places.sig.is_empty() {
        assert_eq!(found, None);
        return;
    }
    let found = found.expect("a signature");
    assert_eq!([found.sigmask], bytes[places.sigmask.clone()]);
    assert_eq!(found.sig[..], bytes[places.sig.clone()]);
    assert_eq!(found.keys.as_flattened(), &bytes[places.keys.clone()]);
    assert_eq!((found.m, found.n), (places.m, places.n));
}

#[test]
fn checks() {
    let mut random = Random::new(801);
    let mut tally = Tally::new("checks by the wrapper");
    for _ in 0..cases(20_000) {
        for form in [Form::File, Form::Slot] {
            let draft = faulty_draft(1, form, &mut random);
            let bytes = &draft.bytes()[..draft.length()];
            let answer = match form {
                Form::File => thimmorel::check_file(bytes, inputs(&draft.inputs)),
                Form::Slot => thimmorel::check_slot(bytes, inputs(&draft.inputs)),
            };
            let by_model = model::check(form, bytes, &draft.inputs);
            tally.count(step(&by_model, bytes.len()));
            let by_model = by_model.map(|told| image(bytes, &told));
            assert_eq!(answer, by_model.map_err(refusal));
        }
    }
    tally.assert_exactly(100, &[&STEPS[..], &[ACCEPTED]].concat());
}

#[test]
fn questions_signatures_and_trust() {
    let mut random = Random::new(802);
    for _ in 0..cases(20_000) {
        let draft = faulty_draft(1, Form::File, &mut random);
        let bytes = &draft.bytes()[..draft.length()];
        let vendor = model::vendor_digest(bytes).map_err(refusal);
        let firmware = model::firmware_digest(bytes).map_err(refusal);
        assert_eq!(thimmorel::vendor_digest(bytes), vendor);
        assert_eq!(thimmorel::firmware_digest(bytes), firmware);

        let found = thimmorel::vendor_signature(bytes);
        assert_signature(found, bytes, &model::vendor_signature(bytes));
        let found = thimmorel::firmware_signature(bytes);
        assert_signature(found, bytes, &model::firmware_signature(bytes));

        let trust = model::trust_of(bytes);
        let expected = Trust {
            seconds: trust.seconds,
            red_background: trust.red,
            click_needed: trust.click,
            string_shown: trust.string,
            secret_allowed: trust.secret,
        };
        assert_eq!(Trust::read(bytes), expected);
    }
}

/// Outputs that are long enough, and some that are not.
#[test]
fn writers() {
    let mut random = Random::new(803);
    let mut tally = Tally::new("headers written by the wrapper");
    for _ in 0..cases(20_000) {
        let mut draft = Draft::small(Form::File, &mut random);
        if random.one_in(8) {
            draft.fields.m = random.pick(&[0, 9]);
        }
        let length = random.pick(&[draft.v(), draft.v() + 9, draft.v() - 1]);
        let (mut out, mut expected) = (vec![0; length], vec![0; length]);
        let keys = keys(&draft.fields.keys);
        let fields = vendor_header(&draft.fields, &keys);
        let answer = thimmorel::write_vendor(&fields, &mut out);
        let by_model = writer::write_vendor(&draft.fields, &mut expected);
        assert_eq!(answer, by_model.map_err(alone));
        assert_eq!(out, expected);
        tally.count(by_model.err());

        let mut out = [0; 1_024];
        let fields = firmware_header(&draft);
        let answer = thimmorel::write_firmware(&fields, &draft.code, &mut out);
        assert_eq!(answer, Ok(1_024));
        assert_eq!(out[..], draft.firmware);
    }
    tally.assert_exactly(1_000, &[None, Some(4), Some(21)]);
}

fn keys(bytes: &[u8]) -> Vec<[u8; 32]> {
    let keys = bytes.chunks(32);
    keys.map(|key| key.try_into().expect("32 bytes")).collect()
}

fn vendor_header<'a>(fields: &'a writer::VendorFields, keys: &'a [[u8; 32]]) -> VendorHeader<'a> {
    VendorHeader {
        expiry: fields.expiry,
        major: fields.major as u8,
        minor: fields.minor as u8,
        m: fields.m as u8,
        keys,
        vtrust: fields.vtrust as u16,
        string: &fields.string,
        picture: &fields.picture,
        sigmask: fields.sigmask as u8,
        sig: fields.sig,
    }
}

fn firmware_header(draft: &Draft) -> FirmwareHeader {
    let header = Firmware(&draft.firmware);
    FirmwareHeader {
        vendor_length: draft.v() as u32,
        expiry: header.expiry(),
        version: version(header.version()),
        fix_version: version(header.fix()),
        sigmask: header.sigmask(),
        sig: header.0[960..].try_into().expect("64 bytes"),
    }
}

/// No keys, and as many as do not fit a byte.
#[test]
fn numbers_of_keys() {
    let mut out = [0; 65_536];
    for n in [0, 9, 255, 256, 257, 264] {
        let keys = vec![[7; 32]; n];
        let fields = VendorHeader {
            m: 1,
            keys: &keys,
            ..VendorHeader::default()
        };
        assert_eq!(thimmorel::write_vendor(&fields, &mut out), Err(alone(4)));
    }
    assert_eq!(out, [0; 65_536]);
}

#[test]
fn how_a_refusal_reads() {
    let refusal = Refusal {
        reason: Reason::ChunkHash,
        part: Some(Part::Code),
        chunk: Some(2),
    };
    assert_eq!(
        refusal.to_string(),
        "refused with 14 in the code, chunk 2: \
         the code in a chunk does not have the digest that its header gives"
    );
    assert_eq!(
        alone(21).to_string(),
        "refused with 21: the output is shorter than the header"
    );
    assert_eq!(
        alone(99).to_string(),
        "refused with 99: no call of this version gives this number"
    );
}

/// `Debug` tells how many bytes there are, and not all of them.
#[test]
fn how_an_image_is_shown() {
    let long = vec![0; 2_000_000];
    let image = Image {
        vendor_length: 512,
        version: version([2, 0, 0, 1]),
        fix_version: version([1, 0, 0, 0]),
        string: b"Ann\xff",
        picture: &long[..300],
        code: &long,
    };
    let shown = format!("{image:?}");
    assert!(shown.contains(r#"string: b"Ann\xff", picture: 300 bytes, code: 2000000 bytes"#));
    assert!(shown.len() < 250, "{shown}");

    let header = VendorHeader {
        keys: &[[7; 32]; 8],
        string: &long[..255],
        picture: &long,
        ..VendorHeader::default()
    };
    let shown = format!("{header:?}");
    assert!(shown.contains("keys: 8 keys"), "{shown}");
    assert!(shown.contains("string: 255 bytes, picture: 2000000 bytes"));

    let signature = Signature {
        sigmask: 5,
        sig: &[1; 64],
        keys: &[[7; 32]; 8],
        m: 2,
        n: 8,
    };
    assert_eq!(
        format!("{signature:?}"),
        "Signature { sigmask: 0x05, sig: 64 bytes, keys: 8 keys, m: 2, n: 8 }"
    );
}

#[test]
fn later_versions_are_greater() {
    let ordered = [
        [1, 9, 9, 9],
        [2, 0, 0, 0],
        [2, 0, 0, 1],
        [2, 0, 1, 0],
        [2, 1, 0, 0],
    ];
    let ordered = ordered.map(version);
    assert!(ordered.windows(2).all(|pair| pair[0] < pair[1]));
    assert_eq!(version([2, 1, 0, 7]).to_string(), "2.1.0.7");
}
