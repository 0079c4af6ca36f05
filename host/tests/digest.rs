//! The archive's digests against independent models and Python's hashlib: at every short length, at
//! every alignment to a block, and at lengths up to 2 MiB. Then their use of the memory that they
//! are lent, and the header from C and C++.

mod common;
mod model;

use common::random::Random;
use common::{c, hashlib, hex};
use model::blake2s::{blake2s, blake2s_keyed};
use model::sha256::sha256;
use thimmorel::ffi;

/// One of the archive's hash functions, and those that it is compared with.
struct Hash {
    archive: fn(&[u8]) -> [u8; 32],
    call: unsafe extern "C" fn(*const u8, u64, *mut [u8; 32]),
    model: fn(&[u8]) -> [u8; 32],
    in_hashlib: &'static str,
    empty: &'static str,
    abc: &'static str,
}

const HASHES: [Hash; 2] = [
    Hash {
        archive: thimmorel::digest,
        call: ffi::thimmorel_digest,
        model: blake2s,
        in_hashlib: "blake2s",
        empty: "69217a3079908094e11121d042354a7c1f55b6482ca1a51e1b250dfd1ed0eef9",
        abc: "508c5e8c327c14e2e1a72ba34eeb452f37458b209ed63a294d999b4c86675982",
    },
    Hash {
        archive: thimmorel::sha256,
        call: ffi::thimmorel_sha256,
        model: sha256,
        in_hashlib: "sha256",
        empty: "e3b0c44298fc1c149afbf4c8996fb92427ae41e4649b934ca495991b7852b855",
        abc: "ba7816bf8f01cfea414140de5dae2223b00361a396177a9cb410ff61f20015ad",
    },
];

const SELF_TEST: &str = "6a411f08ce25adcdfb02aba641451cec53c598b24f4fc787fbdc88797f4c1dfe";

fn assert_agreement(messages: &[&[u8]]) {
    for hash in HASHES {
        let name = hash.in_hashlib;
        for (message, by_hashlib) in messages.iter().zip(hashlib::digests(name, messages)) {
            let digest = (hash.archive)(message);
            let length = message.len();
            let by_model = (hash.model)(message);
            assert_eq!(digest, by_model, "{name} of the model, at {length} bytes");
            assert_eq!(digest, by_hashlib, "{name} of hashlib, at {length} bytes");
        }
    }
}

fn assert_agreement_at(lengths: impl Iterator<Item = usize>, random: &mut Random) {
    let messages: Vec<Vec<u8>> = lengths.map(|length| random.bytes(length)).collect();
    let messages: Vec<&[u8]> = messages.iter().map(Vec::as_slice).collect();
    assert_agreement(&messages);
}

#[test]
fn known_digests() {
    for hash in HASHES {
        assert_eq!((hash.archive)(b"abc"), hex::digest(hash.abc));
        assert_eq!((hash.archive)(b""), hex::digest(hash.empty));
    }
}

/// The messages of two blocks and of a million letters that NIST prints the SHA-256 of, beside
/// "abc" above.
#[test]
fn examples_of_nist() {
    let two_blocks = b"abcdbcdecdefdefgefghfghighijhijkijkljklmklmnlmnomnopnopq";
    let long = vec![b'a'; 1_000_000];
    for (message, digest) in [
        (
            &two_blocks[..],
            "248d6a61d20638b8e5c026930c3e6039a33ce45964ff2167f6ecedd419db06c1",
        ),
        (
            &long[..],
            "cdc76e5c9914fb9281a1c7e284d73e67f1809a48a497200e046d39ccc7112cd0",
        ),
    ] {
        assert_eq!(sha256(message), hex::digest(digest));
        assert_eq!(thimmorel::sha256(message), hex::digest(digest));
    }
}

/// The bytes that RFC 7693, appendix E, makes for a length.
fn sequence(length: usize) -> Vec<u8> {
    let mut a = 0xdead4bad_u32.wrapping_mul(length as u32);
    let mut b = 1_u32;
    let next = || {
        let sum = a.wrapping_add(b);
        (a, b) = (b, sum);
        (sum >> 24) as u8
    };
    std::iter::repeat_with(next).take(length).collect()
}

/// The inner digests have keys and other sizes, so the model makes them. The outer one is tried
/// on the model and on the archive.
#[test]
fn self_test_of_appendix_e() {
    let mut digests = Vec::new();
    for size in [16, 20, 28, 32] {
        for length in [0, 3, 64, 65, 255, 1024] {
            digests.extend(blake2s_keyed(size, &[], &sequence(length)));
            digests.extend(blake2s_keyed(size, &sequence(size), &sequence(length)));
        }
    }
    assert_eq!(blake2s(&digests), hex::digest(SELF_TEST));
    assert_eq!(thimmorel::digest(&digests), hex::digest(SELF_TEST));
}

#[test]
fn every_length_up_to_1100() {
    assert_agreement_at(0..=1100, &mut Random::new(1));
}

/// The bytes around each message are random too, so that a digest of a byte too many is seen.
#[test]
fn every_alignment_to_a_block() {
    let buffer = Random::new(2).bytes(512);
    let aligned = buffer.as_ptr().align_offset(64);
    let mut messages = Vec::new();
    for offset in 0..64 {
        for length in 0..=200 {
            messages.push(&buffer[aligned + offset..][..length]);
        }
    }
    assert_agreement(&messages);
}

#[test]
fn lengths_up_to_two_mebibytes() {
    const LIMIT: usize = 2_097_152;
    let mut random = Random::new(3);
    let mut lengths = vec![LIMIT, LIMIT - 1, 1_048_577];
    lengths.extend((3..40).map(|_| random.up_to(LIMIT)));
    assert_agreement_at(lengths.into_iter(), &mut random);
}

#[test]
fn no_bytes_with_any_pointer() {
    let valid = [1_u8; 4];
    let dangling = std::ptr::NonNull::<u8>::dangling().as_ptr().cast_const();
    for hash in HASHES {
        for bytes in [std::ptr::null(), dangling, valid.as_ptr()] {
            let mut digest = [0; 32];
            unsafe { (hash.call)(bytes, 0, &mut digest) };
            assert_eq!(digest, hex::digest(hash.empty), "at {bytes:?}");
        }
    }
}

#[test]
fn only_the_digest_is_written() {
    for hash in HASHES {
        for length in [0, 1, 55, 56, 63, 64, 65, 1024] {
            for at in 32..48 {
                assert_writes_at(&hash, at, Random::new(4).bytes(length));
            }
        }
    }
}

fn assert_writes_at(hash: &Hash, at: usize, mut message: Vec<u8>) {
    const GUARD: u8 = 0xa5;
    let mut buffer = [GUARD; 112];
    let copy = message.clone();
    unsafe {
        let digest = buffer.as_mut_ptr().add(at).cast();
        (hash.call)(message.as_mut_ptr(), message.len() as u64, digest);
    }
    let (before, digest, after) = (&buffer[..at], &buffer[at..at + 32], &buffer[at + 32..]);
    assert_eq!(digest, (hash.model)(&copy));
    assert!(before.iter().chain(after).all(|byte| *byte == GUARD));
    assert_eq!(message, copy);
}

#[test]
fn only_the_lent_bytes_are_read() {
    c::run_as_c_and_cpp("host/tests/c/place.c");
}

#[test]
fn from_c_and_cpp() {
    c::run_as_c_and_cpp("host/tests/c/digest.c");
}
