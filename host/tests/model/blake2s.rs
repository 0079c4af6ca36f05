//! BLAKE2s written from RFC 7693, with its names: G, SIGMA, F, and the loop of section 3.3.
//! It has the key and the shorter digests too, so that the self-test of appendix E, which needs
//! both, can try the model itself.

/// Bytes of a block (bb, section 2.1).
const BLOCK: usize = 64;

/// Section 2.6.
const IV: [u32; 8] = [
    0x6a09e667, 0xbb67ae85, 0x3c6ef372, 0xa54ff53a, 0x510e527f, 0x9b05688c, 0x1f83d9ab, 0x5be0cd19,
];

/// Section 2.7.
const SIGMA: [[usize; 16]; 10] = [
    [0, 1, 2, 3, 4, 5, 6, 7, 8, 9, 10, 11, 12, 13, 14, 15],
    [14, 10, 4, 8, 9, 15, 13, 6, 1, 12, 0, 2, 11, 7, 5, 3],
    [11, 8, 12, 0, 5, 2, 15, 13, 10, 14, 3, 6, 7, 1, 9, 4],
    [7, 9, 3, 1, 13, 12, 11, 14, 2, 6, 5, 10, 4, 0, 15, 8],
    [9, 0, 5, 7, 2, 4, 10, 15, 14, 1, 11, 12, 6, 8, 3, 13],
    [2, 12, 6, 10, 0, 11, 8, 3, 4, 13, 7, 5, 15, 14, 1, 9],
    [12, 5, 1, 15, 14, 13, 4, 10, 0, 7, 6, 3, 9, 2, 8, 11],
    [13, 11, 7, 14, 12, 1, 3, 9, 5, 0, 15, 4, 8, 6, 2, 10],
    [6, 15, 14, 9, 11, 3, 0, 8, 12, 2, 13, 7, 1, 4, 10, 5],
    [10, 2, 8, 4, 7, 6, 1, 5, 15, 11, 9, 14, 3, 12, 13, 0],
];

/// The mixing function G (section 3.1).
fn g(v: &mut [u32; 16], [a, b, c, d]: [usize; 4], x: u32, y: u32) {
    v[a] = v[a].wrapping_add(v[b]).wrapping_add(x);
    v[d] = (v[d] ^ v[a]).rotate_right(16);
    v[c] = v[c].wrapping_add(v[d]);
    v[b] = (v[b] ^ v[c]).rotate_right(12);
    v[a] = v[a].wrapping_add(v[b]).wrapping_add(y);
    v[d] = (v[d] ^ v[a]).rotate_right(8);
    v[c] = v[c].wrapping_add(v[d]);
    v[b] = (v[b] ^ v[c]).rotate_right(7);
}

/// The compression function F (section 3.2): t is the offset counter, and f marks the last block.
fn f(h: &mut [u32; 8], m: &[u32; 16], t: u64, f: bool) {
    let mut v = [0; 16];
    v[..8].copy_from_slice(h);
    v[8..].copy_from_slice(&IV);
    v[12] ^= t as u32;
    v[13] ^= (t >> 32) as u32;
    if f {
        v[14] = !v[14];
    }
    for s in &SIGMA {
        g(&mut v, [0, 4, 8, 12], m[s[0]], m[s[1]]);
        g(&mut v, [1, 5, 9, 13], m[s[2]], m[s[3]]);
        g(&mut v, [2, 6, 10, 14], m[s[4]], m[s[5]]);
        g(&mut v, [3, 7, 11, 15], m[s[6]], m[s[7]]);
        g(&mut v, [0, 5, 10, 15], m[s[8]], m[s[9]]);
        g(&mut v, [1, 6, 11, 12], m[s[10]], m[s[11]]);
        g(&mut v, [2, 7, 8, 13], m[s[12]], m[s[13]]);
        g(&mut v, [3, 4, 9, 14], m[s[14]], m[s[15]]);
    }
    for i in 0..8 {
        h[i] ^= v[i] ^ v[i + 8];
    }
}

/// The sixteen words of a block, least byte first (section 2.4).
fn words(block: &[u8]) -> [u32; 16] {
    std::array::from_fn(|i| {
        u32::from_le_bytes(block[4 * i..4 * i + 4].try_into().expect("four bytes"))
    })
}

/// The padded blocks d[0..dd-1] of section 3.3: the key's, if there is a key, and the message's.
/// Without both there is one block of zeros.
fn blocks(key: &[u8], message: &[u8]) -> Vec<[u32; 16]> {
    let mut d = key.to_vec();
    d.resize(key.len().next_multiple_of(BLOCK), 0);
    d.extend_from_slice(message);
    d.resize(d.len().next_multiple_of(BLOCK).max(BLOCK), 0);
    d.chunks(BLOCK).map(words).collect()
}

/// BLAKE2s with a digest of `size` bytes (section 3.3). An empty key is no key.
pub fn blake2s_keyed(size: usize, key: &[u8], message: &[u8]) -> Vec<u8> {
    let mut h = IV;
    h[0] ^= 0x01010000 ^ ((key.len() as u32) << 8) ^ size as u32;

    let d = blocks(key, message);
    let (last, before) = d.split_last().expect("there is at least one block");
    for (i, block) in before.iter().enumerate() {
        f(&mut h, block, ((i + 1) * BLOCK) as u64, false);
    }
    let key_bytes = if key.is_empty() { 0 } else { BLOCK };
    f(&mut h, last, (message.len() + key_bytes) as u64, true);

    h.iter()
        .flat_map(|word| word.to_le_bytes())
        .take(size)
        .collect()
}

/// BLAKE2s as the archive has it: no key, and 32 bytes.
pub fn blake2s(message: &[u8]) -> [u8; 32] {
    blake2s_keyed(32, &[], message)
        .try_into()
        .expect("32 bytes were asked for")
}
