//! The model against the worked numbers of the specification, 13: P1 to P12, then those without a
//! mark. A number that the model gets wrong here would be wrong in every test that compares the
//! archive with it. older_numbers.rs has those of the older model.

mod model;

use model::blake2s::blake2s;
use model::image::{check, parts, refusal, trust, vendor_digest, Form, Inputs, Refusal, YES};
use model::installer::{self, Operation};
use model::layout::room_in_first;
use model::loader::{self, Area};
use model::program::inspect;
use model::writer::{firmware_header, vendor_header, FirmwareFields, VendorFields};

const INPUTS: Inputs = Inputs {
    time: 0,
    m: 2,
    n: 3,
    vendor: YES,
    firmware: YES,
};

/// A vendor header for policy 2 of 3, with keys for 2 of `n`, and no picture.
fn vendor(n: u32, string: usize) -> VendorFields {
    VendorFields {
        expiry: 0,
        major: 1,
        minor: 0,
        m: 2,
        n,
        vtrust: 0xffff,
        sigmask: 0x03,
        keys: vec![7; 32 * n as usize],
        string: vec![b'a'; string],
        picture: Vec::new(),
        sig: [1; 64],
    }
}

fn firmware() -> FirmwareFields {
    FirmwareFields {
        v: 512,
        expiry: 0,
        version: [2, 3, 4, 5],
        fix: [2, 0, 0, 0],
        sigmask: 0x03,
        sig: [2; 64],
    }
}

fn image_of(vendor: &VendorFields, firmware: &FirmwareFields, code: &[u8]) -> Vec<u8> {
    let mut bytes = vendor_header(vendor).expect("the fields are good");
    assert_eq!(bytes.len(), firmware.v as usize);
    bytes.extend(firmware_header(firmware, code).expect("the fields are good"));
    bytes.extend(code);
    bytes
}

fn image() -> Vec<u8> {
    image_of(&vendor(2, 4), &firmware(), b"code")
}

fn check_file(bytes: &[u8], inputs: &Inputs) -> Result<(), Refusal> {
    check(Form::File, bytes, inputs).map(|_| ())
}

#[test]
fn p1_p2_p3_where_the_picture_stands() {
    let picture = |string| {
        let bytes = image_of(&vendor(2, string), &firmware(), b"code");
        parts(&bytes, &check(Form::File, &bytes, &INPUTS)).picture
    };
    assert_eq!(picture(4).start, 104);
    assert_eq!(picture(3).start, 100);
    assert_eq!(picture(4).len(), 343);
}

#[test]
fn p4_p5_the_longest_string() {
    let mut bytes = vendor_header(&vendor(8, 155)).expect("the fields are good");
    assert_eq!(bytes.len(), 512);
    assert!(vendor_digest(&bytes).is_ok());
    bytes[32 + 32 * 8] = 156;
    assert_eq!(vendor_digest(&bytes), Err(refusal(5, 1)));
}

/// The bytes of a firmware header that hold hash `k`.
fn hash(header: &[u8], k: usize) -> &[u8] {
    &header[32 * k..32 * k + 32]
}

#[test]
fn p6_room_in_chunk_1() {
    let code: Vec<u8> = (0..129_540_u32).map(|i| (i % 251) as u8).collect();

    let header = firmware_header(&firmware(), &code[..129_536]).expect("the fields are good");
    assert_eq!(hash(&header, 1), blake2s(&code[..129_536]));
    assert_eq!(hash(&header, 2), [0; 32]);

    let header = firmware_header(&firmware(), &code).expect("the fields are good");
    assert_eq!(hash(&header, 1), blake2s(&code[..129_536]));
    assert_eq!(hash(&header, 2), blake2s(&code[129_536..]));
    assert_eq!(hash(&header, 3), [0; 32]);
}

#[test]
fn p7_the_last_good_time() {
    let at = |time| Inputs { time, ..INPUTS };
    let expiry = 100;

    let fields = VendorFields {
        expiry,
        ..vendor(2, 4)
    };
    let bytes = image_of(&fields, &firmware(), b"code");
    assert_eq!(check_file(&bytes, &at(100)), Ok(()));
    assert_eq!(check_file(&bytes, &at(101)), Err(refusal(7, 1)));

    let fields = FirmwareFields {
        expiry,
        ..firmware()
    };
    let bytes = image_of(&vendor(2, 4), &fields, b"code");
    assert_eq!(check_file(&bytes, &at(100)), Ok(()));
    assert_eq!(check_file(&bytes, &at(101)), Err(refusal(7, 2)));
}

/// At S10 the policy is the caller's, at S19 the vendor header's own.
#[test]
fn p8_p9_masks_under_2_of_3() {
    let with_masks = |vendor_mask, firmware_mask| {
        let vendor = VendorFields {
            sigmask: vendor_mask,
            ..vendor(3, 4)
        };
        let firmware = FirmwareFields {
            sigmask: firmware_mask,
            ..firmware()
        };
        check_file(&image_of(&vendor, &firmware, b"code"), &INPUTS)
    };
    assert_eq!(with_masks(0x03, 0x03), Ok(()));
    for mask in [0x07, 0x01, 0x0b, 0x09] {
        assert_eq!(with_masks(mask, 0x03), Err(refusal(8, 1)));
        assert_eq!(with_masks(0x03, mask), Err(refusal(8, 2)));
    }
}

#[test]
fn p10_p11_seconds() {
    assert_eq!(trust(0xfff6).seconds, 9);
    assert_eq!(trust(0xffff).seconds, 0);
    assert_eq!(trust(0x0000).seconds, 15);
}

#[test]
fn p12_operations() {
    let file = image();
    assert_eq!(file.len(), 1_540);
    let mut slot = vec![0; 65_536];
    let (refused, mut record) = installer::begin(slot.len(), file.len());
    assert_eq!(refused, None);

    while installer::erase(&mut record, &mut slot).is_ok() {}
    let mut given = 0;
    while given < file.len() {
        given += installer::fill(&mut record, &file[given..], &mut slot).expect("it is open");
    }
    assert!(installer::close(&mut record, &mut slot, &INPUTS).is_ok());

    assert_eq!(record.operations, 402);
    assert_eq!(slot[..1_540], file);
    assert!(slot[1_540..].iter().all(|byte| *byte == 255));
}

/// The same by calls that hand their operation back (specification, 10.5).
#[test]
fn p12_operations_of_a_driver() {
    let file = image();
    let mut slot = vec![0; 65_536];
    let (_, mut record) = installer::begin(slot.len(), file.len());
    let mut made = 0;
    while let Ok(operation) = installer::plan_erase(&mut record, &slot) {
        operation.make(&mut slot);
        made += 1;
    }
    for piece in file.chunks(4) {
        let answer = installer::plan_fill(&mut record, piece, &slot);
        let (taken, operation) = answer.expect("it is open");
        assert_eq!(taken, 4);
        operation.make(&mut slot);
        made += u32::from(operation != Operation::Nothing);
    }
    assert_eq!(made, 401);
    assert_eq!(installer::confirm(&mut record, &slot), Err(19));
    let operation = installer::plan_close(&mut record, &slot, &INPUTS).expect("it is good");
    let first = file[..4].try_into().expect("four bytes");
    assert_eq!(operation, Operation::StoreWord(0, first));

    assert_eq!(installer::confirm(&mut record, &slot), Err(27));
    operation.make(&mut slot);
    assert_eq!(installer::confirm(&mut record, &slot), Ok(()));
    assert_eq!(installer::confirm(&mut record, &slot), Err(19));
    assert_eq!(record.operations, 402);
    assert_eq!(slot[..1_540], file);
}

/// The code need not be there: S16 comes before S21.
#[test]
fn the_longest_code() {
    let with_codelen = |codelen: u32| {
        let mut bytes = image();
        bytes[512 + 12..512 + 16].copy_from_slice(&codelen.to_le_bytes());
        check_file(&bytes, &INPUTS)
    };
    assert_eq!(with_codelen(2_095_616), Err(refusal(2, 3)));
    assert_eq!(with_codelen(2_095_620), Err(refusal(12, 2)));
}

/// A loader's header for code of so many bytes, of which none need be there.
fn loader_header(codelen: u32, hash: [u8; 32]) -> Vec<u8> {
    let mut header = vec![0; 1_024];
    header[..4].copy_from_slice(b"TRZB");
    header[4..8].copy_from_slice(&1_024_u32.to_le_bytes());
    header[12..16].copy_from_slice(&codelen.to_le_bytes());
    header[16..24].copy_from_slice(&[2, 3, 4, 5, 2, 0, 0, 0]);
    header[32..64].copy_from_slice(&hash);
    header[959] = 0x03;
    header
}

const LOADER_INPUTS: loader::Inputs = loader::Inputs {
    time: 0,
    m: 2,
    n: 3,
    card: YES,
    internal: YES,
};

/// All code of a loader is in chunk 1.
#[test]
fn the_longest_loader() {
    let with_codelen = |codelen| {
        let header = loader_header(codelen, [0; 32]);
        loader::check(Area::Card, &header, &LOADER_INPUTS)
    };
    assert_eq!(room_in_first(0), 130_048);
    assert_eq!(with_codelen(130_048), Err(refusal(2, 3)));
    assert_eq!(with_codelen(130_052), Err(refusal(12, 2)));
}

#[test]
fn the_shortest_loader() {
    let mut bytes = loader_header(4, blake2s(b"code"));
    bytes.extend(b"code");
    let told = loader::check(Area::Internal, &bytes, &LOADER_INPUTS).expect("it is good");
    assert_eq!((told.v, told.codelen), (0, 4));
    assert_eq!((told.version, told.fix), ([2, 3, 4, 5], [2, 0, 0, 0]));
    let chosen = loader::choose(&[], &bytes, &LOADER_INPUTS).expect("it is good");
    assert_eq!((chosen.area, chosen.place), (Area::Internal, 0..1_028));

    bytes.push(0);
    let check = |area| loader::check(area, &bytes, &LOADER_INPUTS);
    assert_eq!(check(Area::Card), Ok(told));
    assert_eq!(check(Area::Internal), Err(refusal(13, 3)));
}

#[test]
fn what_the_program_writes() {
    assert_eq!(inspect(&[]), "refused 1 part 1 chunk 0\n");
    assert_eq!(inspect(&image()), "accepted\n");
    assert_eq!(inspect(&[0; 65_536]), "refused 1 part 1 chunk 0\n");
    assert_eq!(inspect(&[0; 65_537]), "too large\n");
}
