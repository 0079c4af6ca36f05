//! The writers: good and bad fields, odd lengths, outputs too short by one, and the bytes around
//! the output. Then that the writers and the check agree (specification, 8.3): what the writers
//! write passes, and what passed is written again.

use crate::archive::{image as archive, writer};
use crate::common::random::Random;
use crate::draft::Draft;
use crate::model::image::{parts, Form};
use crate::model::layout::Vendor;
use crate::model::writer::{FirmwareFields, VendorFields};
use crate::tally::{cases, Tally};
use crate::written::{
    compare_firmware, compare_vendor, firmware_fields, firmware_of, vendor_fields,
};

/// The refusal, or 0.
fn number<T>(answer: Result<T, u32>) -> u32 {
    answer.err().unwrap_or(0)
}

#[test]
fn vendor_headers() {
    let mut random = Random::new(401);
    let mut tally = Tally::new("vendor headers written");
    for _ in 0..cases(150_000) {
        let fields = vendor_fields(&mut random);
        tally.count(number(compare_vendor(&fields, &mut random)));
    }
    tally.assert_exactly(500, &[0, 3, 4, 20, 21, 28]);
}

#[test]
fn firmware_headers() {
    let mut random = Random::new(402);
    let mut tally = Tally::new("firmware headers written");
    for _ in 0..cases(300_000) {
        let any = random.up_to(600);
        let code_length = random.pick(&[0, 1, 3, 4, 5, 4 * any, any]);
        let code = random.bytes(code_length);
        let fields = firmware_fields(&mut random);
        tally.count(number(compare_firmware(&fields, &code, &mut random)));
    }
    tally.assert_exactly(1_000, &[0, 3, 12, 21, 28]);
}

/// Each number alone at the limit of its field and above it, with other faults behind it: 28 comes
/// first.
#[test]
fn numbers_beyond_their_fields() {
    type Number = fn(&mut VendorFields) -> &mut u32;
    let numbers: [(Number, u32); 4] = [
        (|fields| &mut fields.major, 255),
        (|fields| &mut fields.minor, 255),
        (|fields| &mut fields.sigmask, 255),
        (|fields| &mut fields.vtrust, 65_535),
    ];
    let mut random = Random::new(406);
    for (number, limit) in numbers {
        for _ in 0..cases(2_000) {
            let mut fields = Draft::small(Form::File, &mut random).fields;
            *number(&mut fields) = limit;
            assert_ne!(compare_vendor(&fields, &mut random), Err(28));
            let mut fields = vendor_fields(&mut random);
            let above = limit + 1 + random.up_to((u32::MAX - limit - 1) as usize) as u32;
            *number(&mut fields) = random.pick(&[limit + 1, u32::MAX, above, 1 << 31]);
            assert_eq!(compare_vendor(&fields, &mut random), Err(28));
        }
    }
    for sigmask in [255, 256, 257, 1 << 31, u32::MAX] {
        let fields = FirmwareFields {
            sigmask,
            ..firmware_fields(&mut random)
        };
        let answer = compare_firmware(&fields, &[], &mut random);
        assert_eq!(answer == Err(28), sigmask > 255);
    }
}

/// Code around the ends of chunks, and around the largest length.
#[test]
fn firmware_headers_of_much_code() {
    let mut random = Random::new(403);
    let mut tally = Tally::new("firmware headers of much code");
    let bytes = random.bytes(2_097_152);
    for _ in 0..cases(40) {
        let fields = firmware_fields(&mut random);
        let room = 130_048_usize.saturating_sub(fields.v as usize);
        let largest = 2_096_128_usize.saturating_sub(fields.v as usize);
        let base = random.pick(&[room, room + 131_072, room + 7 * 131_072, largest]);
        for length in [base.saturating_sub(4), base, base + 1, base + 4] {
            let code = &bytes[..length.min(bytes.len())];
            tally.count(number(compare_firmware(&fields, code, &mut random)));
        }
    }
    tally.assert_seen(5, &[0, 3, 12, 21]);
}

/// A well-formed image that the archive writes passes the archive's check.
#[test]
fn written_images_pass() {
    let mut random = Random::new(404);
    for _ in 0..cases(50_000) {
        let draft = Draft::small(Form::File, &mut random);
        let bytes = draft.bytes();
        let firmware = firmware_of(&bytes, draft.v());
        let mut written = vec![0; bytes.len()];
        let v = writer::write_vendor(&draft.fields, &mut written).expect("good fields");
        let end = v + writer::write_firmware(&firmware, &draft.code, &mut written[v..])
            .expect("good fields");
        written[end..].copy_from_slice(&draft.code);
        assert!(archive::check(Form::File, &written, &draft.inputs).is_ok());
        assert!(written == bytes, "the model's image");
    }
}

/// The vendor writer's fields, read from an accepted image: the whole picture area goes back.
fn vendor_of(bytes: &[u8]) -> VendorFields {
    let header = Vendor(bytes);
    let v = header.hdrlen();
    VendorFields {
        expiry: header.expiry(),
        major: bytes[12].into(),
        minor: bytes[13].into(),
        m: header.vsig_m(),
        n: header.vsig_n(),
        vtrust: u16::from_le_bytes([bytes[16], bytes[17]]).into(),
        sigmask: header.sigmask().into(),
        keys: bytes[header.keys()].to_vec(),
        string: bytes[header.string()].to_vec(),
        picture: bytes[header.picture()].to_vec(),
        sig: bytes[v - 64..v].try_into().expect("64 bytes"),
    }
}

/// An accepted image taken apart and written again is the same bytes. The bytes of the picture
/// area are random up to the sigmask, as no writer leaves them.
#[test]
fn accepted_images_are_written_again() {
    let mut random = Random::new(405);
    for _ in 0..cases(50_000) {
        let mut draft = Draft::small(Form::File, &mut random);
        let picture = Vendor(&draft.vendor).picture();
        let noise = random.bytes(picture.len());
        draft.vendor[picture].copy_from_slice(&noise);
        let bytes = draft.bytes();
        let answer = archive::check(Form::File, &bytes, &draft.inputs);
        let image = answer.expect("the picture area is opaque");

        let v = image.v as usize;
        let code = &bytes[parts(&bytes, &answer).code];
        let mut again = vec![0; bytes.len()];
        assert_eq!(writer::write_vendor(&vendor_of(&bytes), &mut again), Ok(v));
        let firmware = firmware_of(&bytes, v);
        assert_eq!(
            writer::write_firmware(&firmware, code, &mut again[v..]),
            Ok(1_024)
        );
        again[v + 1_024..].copy_from_slice(code);
        assert!(again == bytes, "written again");
    }
}
