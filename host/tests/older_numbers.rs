//! The model against the worked numbers of the older model (specification, 17), as model_numbers.rs
//! has those of the others.

mod model;

use model::image::{refusal, Form, Refusal, YES};
use model::older::{check, legacy_digest, v2_digest, Headers, Inputs, ROOM_IN_FIRST};
use model::sha256::sha256;

/// A V2 header for code of so many bytes, of which none need be there, signed by keys 1 to 3. In the
/// pair it stands behind a legacy header that fits it, signed by keys 4, 3 and 2.
fn headers_of(headers: Headers, codelen: u32, hashes: &[[u8; 32]]) -> Vec<u8> {
    let mut bytes = vec![0; 256 + 1_024];
    bytes[..4].copy_from_slice(b"TRZR");
    bytes[4..8].copy_from_slice(&(1_024 + codelen).to_le_bytes());
    bytes[8..11].copy_from_slice(&[4, 3, 2]);
    let v2 = &mut bytes[256..];
    v2[..4].copy_from_slice(b"TRZF");
    v2[4..8].copy_from_slice(&1_024_u32.to_le_bytes());
    v2[12..16].copy_from_slice(&codelen.to_le_bytes());
    v2[16..24].copy_from_slice(&[1, 8, 0, 5, 1, 8, 0, 0]);
    v2[32..32 + 32 * hashes.len()].copy_from_slice(hashes.as_flattened());
    v2[0x2e0..0x2e3].copy_from_slice(&[1, 2, 3]);
    match headers {
        Headers::V2 => bytes.split_off(256),
        Headers::Pair => bytes,
    }
}

const INPUTS: Inputs = Inputs {
    time: 0,
    keys: 4,
    legacy: [YES; 3],
    v2: [YES; 3],
};

fn check_file(headers: Headers, bytes: &[u8]) -> Result<u32, Refusal> {
    let told = check(headers, Form::File, bytes, &INPUTS)?;
    assert_eq!(
        (told.v, told.version, told.fix),
        (0, [1, 8, 0, 5], [1, 8, 0, 0])
    );
    Ok(told.codelen)
}

/// The longest pair fills a slot of 2,097,152 bytes.
#[test]
fn the_longest_code() {
    let with_codelen = |headers, codelen| check_file(headers, &headers_of(headers, codelen, &[]));
    assert_eq!(ROOM_IN_FIRST, 131_072 - 1_024 - 256);
    assert_eq!(ROOM_IN_FIRST + 15 * 131_072, 2_095_872);
    assert_eq!(256 + 1_024 + 2_095_872, 2_097_152);
    for headers in [Headers::V2, Headers::Pair] {
        assert_eq!(with_codelen(headers, 2_095_872), Err(refusal(2, 3)));
        assert_eq!(with_codelen(headers, 4), Err(refusal(2, 3)));
    }
    assert_eq!(with_codelen(Headers::V2, 2_095_876), Err(refusal(12, 2)));
    assert_eq!(with_codelen(Headers::Pair, 2_095_876), Err(refusal(12, 1)));
    assert_eq!(with_codelen(Headers::Pair, 0), Err(refusal(12, 1)));
}

#[test]
fn the_shortest_images() {
    for (headers, length) in [(Headers::V2, 1_028), (Headers::Pair, 1_284)] {
        let mut bytes = headers_of(headers, 4, &[sha256(b"code")]);
        bytes.extend(b"code");
        assert_eq!(bytes.len(), length);
        assert_eq!(check_file(headers, &bytes), Ok(4));
        bytes[headers.v2() + 12] = 8;
        let refused = match headers {
            Headers::V2 => refusal(2, 3),
            Headers::Pair => refusal(12, 2),
        };
        assert_eq!(check_file(headers, &bytes), Err(refused));
    }
}

/// Behind both forms of headers, the code after 129,792 bytes is in chunk 2.
#[test]
fn room_in_chunk_1() {
    let code: Vec<u8> = (0..129_796_u32).map(|i| (i % 251) as u8).collect();
    let hashes = [sha256(&code[..129_792]), sha256(&code[129_792..])];
    for headers in [Headers::V2, Headers::Pair] {
        let with_hashes = |hashes, length: usize| {
            let bytes = headers_of(headers, length as u32, hashes);
            check_file(headers, &[&bytes, &code[..length]].concat())
        };
        assert_eq!(with_hashes(&hashes[..1], 129_792), Ok(129_792));
        assert_eq!(with_hashes(&hashes, 129_796), Ok(129_796));
    }
}

/// Under a sheet of four keys, the indexes of the V2 header.
#[test]
fn indexes() {
    let mut bytes = headers_of(Headers::V2, 4, &[sha256(b"code")]);
    bytes.extend(b"code");
    for indexes in [[1, 2, 3], [4, 1, 3]] {
        bytes[0x2e0..0x2e3].copy_from_slice(&indexes);
        assert_eq!(check_file(Headers::V2, &bytes), Ok(4));
    }
    for indexes in [[0, 1, 2], [5, 1, 2], [1, 1, 2], [2, 1, 2], [1, 2, 2]] {
        bytes[0x2e0..0x2e3].copy_from_slice(&indexes);
        assert_eq!(check_file(Headers::V2, &bytes), Err(refusal(8, 2)));
    }
}

/// 195 bytes of the V2 header are taken as zero: three signatures and three indexes.
#[test]
fn what_is_signed() {
    let mut pair = headers_of(Headers::Pair, 4, &[sha256(b"code")]);
    pair.extend(b"code");
    let mut unsigned = pair[256..1_280].to_vec();
    pair[256 + 0x220..256 + 0x2e3].fill(9);
    unsigned[544..544 + 195].fill(0);
    assert_eq!(v2_digest(Headers::V2, &pair[256..]), Ok(sha256(&unsigned)));
    assert_eq!(v2_digest(Headers::Pair, &pair), Ok(sha256(&unsigned)));
    assert_eq!(legacy_digest(&pair), Ok(sha256(&pair[256..])));
    assert_eq!(legacy_digest(&pair[..1_283]), Err(refusal(2, 3)));
}
