//! Where each field of the two headers stands (specification, 2 and 3), and how code fills the
//! chunks (4). A field is read at its place and nowhere else: a model that reads past the bytes it
//! has stops the test.

use std::ops::Range;

/// Bytes of the firmware header.
pub const FIRMWARE_HEADER: usize = 1_024;

/// Bytes at the end of each header that the digest to be signed takes as zero: sigmask and sig.
pub const SEAL: usize = 65;

/// Bytes of a full chunk.
const CHUNK: usize = 131_072;

pub const CHUNKS: usize = 16;

/// Bytes of the largest image.
pub const LARGEST: usize = 2_097_152;

/// A number as 32 bits. One that does not fit stops the test.
pub fn word(number: usize) -> u32 {
    u32::try_from(number).expect("32 bits")
}

pub(super) fn u32_at(bytes: &[u8], at: usize) -> u32 {
    u32::from_le_bytes(bytes[at..at + 4].try_into().expect("four bytes"))
}

fn four_at(bytes: &[u8], at: usize) -> [u8; 4] {
    bytes[at..at + 4].try_into().expect("four bytes")
}

/// Bytes that start with a vendor header.
pub struct Vendor<'a>(pub &'a [u8]);

impl Vendor<'_> {
    pub fn hdrlen(&self) -> usize {
        u32_at(self.0, 4) as usize
    }

    pub fn expiry(&self) -> u32 {
        u32_at(self.0, 8)
    }

    pub fn vsig_m(&self) -> u32 {
        self.0[14].into()
    }

    pub fn vsig_n(&self) -> u32 {
        self.0[15].into()
    }

    pub fn keys(&self) -> Range<usize> {
        32..32 + 32 * self.vsig_n() as usize
    }

    pub fn string(&self) -> Range<usize> {
        let start = self.keys().end + 1;
        start..start + usize::from(self.0[start - 1])
    }

    pub fn picture_start(&self) -> usize {
        self.string().end.next_multiple_of(4)
    }

    /// The padding counted in.
    pub fn picture(&self) -> Range<usize> {
        self.picture_start()..self.hdrlen() - SEAL
    }

    /// The bytes that must be zero: 18 to 31, and those between string and picture.
    pub fn zeros(&self) -> [&[u8]; 2] {
        [
            &self.0[18..32],
            &self.0[self.string().end..self.picture_start()],
        ]
    }

    pub fn sigmask(&self) -> u8 {
        self.0[self.hdrlen() - SEAL]
    }

    /// Where sigmask and sig stand.
    pub fn seal(&self) -> Range<usize> {
        self.hdrlen() - SEAL..self.hdrlen()
    }
}

/// Bytes that start with a firmware header.
pub struct Firmware<'a>(pub &'a [u8]);

impl Firmware<'_> {
    pub fn hdrlen(&self) -> usize {
        u32_at(self.0, 4) as usize
    }

    pub fn expiry(&self) -> u32 {
        u32_at(self.0, 8)
    }

    pub fn codelen(&self) -> usize {
        u32_at(self.0, 12) as usize
    }

    pub fn version(&self) -> [u8; 4] {
        four_at(self.0, 16)
    }

    pub fn fix(&self) -> [u8; 4] {
        four_at(self.0, 20)
    }

    /// Hash k is the element at k − 1.
    pub fn hashes(&self) -> [[u8; 32]; CHUNKS] {
        std::array::from_fn(|i| {
            let at = 32 + 32 * i;
            self.0[at..at + 32].try_into().expect("32 bytes")
        })
    }

    /// The bytes that must be zero.
    pub fn zeros(&self) -> [&[u8]; 2] {
        [&self.0[24..24 + 8], &self.0[0x220..0x220 + 415]]
    }

    pub fn sigmask(&self) -> u8 {
        self.0[0x3bf]
    }
}

/// Bytes of code that chunk 1 has room for behind headers of v + 1,024 bytes.
pub fn room_in_first(v: usize) -> usize {
    CHUNK.saturating_sub(FIRMWARE_HEADER + v)
}

/// The code in chunk `k`, from 1 to 16, where chunk 1 has room for `room` bytes: nothing where the
/// code ends before it.
pub fn chunk(code: &[u8], room: usize, k: usize) -> &[u8] {
    let end = |k: usize| match k {
        0 => 0,
        k => (room + (k - 1) * CHUNK).min(code.len()),
    };
    &code[end(k - 1)..end(k)]
}

/// The hash function of an image's digests.
pub type Hash = fn(&[u8]) -> [u8; 32];

/// Hash k: the digest of chunk k, or all zero if it holds nothing.
pub fn hash_of(chunk: &[u8], hash: Hash) -> [u8; 32] {
    match chunk {
        [] => [0; 32],
        chunk => hash(chunk),
    }
}
