//! Thimmorel from Rust: safe calls of the proved library in `libthimmorel.a`. They need no standard
//! library and allocate nothing. `include/thimmorel.h` documents the same calls for C.
//!
//! - [`check_slot`] is the check before firmware is started, [`check_file`] that of a file.
//! - [`write_vendor`] and [`write_firmware`] write the headers of an image.
//! - [`Installer`] installs an image over a [`Flash`] that can fail. [`Session`] is the install
//!   call by call, for a slot in memory or for a driver of your own.
//! - [`choose_loader`] chooses the loader to run, from a memory card or from the internal area.
//! - [`check_v2_slot`] and [`check_pair_slot`] check the older single-chip model's firmware in its
//!   two forms, [`check_v2_file`] and [`check_pair_file`] a file of it.

#![no_std]
#![warn(missing_docs)]

mod check;
pub mod ffi;
mod flash;
mod image;
mod installer;
mod loader;
mod older;
mod places;
mod plans;
mod refusal;
mod session;
mod shown;
mod signing;
pub mod simulated;
mod trust;
mod writer;

pub use check::{check_file, check_slot, Inputs};
pub use flash::{Flash, Operation};
pub use image::{Image, Version};
pub use installer::{InstallError, Installer};
pub use loader::{
    check_card, check_internal, choose_loader, loader_digest, Area, Chosen, Loader, LoaderInputs,
};
pub use older::{
    check_pair_file, check_pair_slot, check_v2_file, check_v2_slot, pair_legacy_digest,
    pair_v2_digest, v2_digest, OlderImage, OlderInputs,
};
pub use refusal::{Part, Reason, Refusal};
pub use session::{Digests, Progress, Session, Signatures};
pub use signing::{
    firmware_digest, firmware_signature, vendor_digest, vendor_signature, Signature,
};
pub use trust::Trust;
pub use writer::{write_firmware, write_vendor, FirmwareHeader, VendorHeader};

/// Bytes of the firmware header.
pub const FIRMWARE_HEADER_SIZE: usize = 1_024;
/// Bytes of the shortest vendor header.
pub const VENDOR_HEADER_MIN: usize = 512;
/// Bytes of the longest vendor header.
pub const VENDOR_HEADER_MAX: usize = 65_536;
/// Bytes of a loader's header.
pub const LOADER_HEADER_SIZE: usize = 1_024;
/// Bytes of the longest code of a loader.
pub const LOADER_CODE_MAX: usize = 130_048;
/// Bytes of the longest loader.
pub const LOADER_MAX: usize = 131_072;
/// Bytes of the older model's legacy header.
pub const LEGACY_HEADER_SIZE: usize = 256;
/// Bytes of the older model's V2 header.
pub const V2_HEADER_SIZE: usize = 1_024;
/// Bytes of the longest code of the older model.
pub const V2_CODE_MAX: usize = 2_095_872;
/// Keys of the older model's smallest key sheet.
pub const OLDER_KEYS_MIN: u32 = 3;
/// Keys of the older model's largest key sheet.
pub const OLDER_KEYS_MAX: u32 = 255;
/// Where the three key indexes of a legacy header are, 1 byte each.
pub const LEGACY_INDEXES: usize = 8;
/// Where the three signatures of a legacy header are, 64 bytes each.
pub const LEGACY_SIGNATURES: usize = 64;
/// Where the three signatures of a V2 header are, 64 bytes each.
pub const V2_SIGNATURES: usize = 544;
/// Where the three key indexes of a V2 header are, 1 byte each.
pub const V2_INDEXES: usize = 736;
/// Bytes of a page of the flash.
pub const PAGE_SIZE: usize = 4_096;
/// Bytes of a word of the flash.
pub const WORD_SIZE: usize = 4;
/// Bytes of the longest slot.
pub const SLOT_MAX: usize = 2_097_152;
/// Bytes of the shortest file.
pub const FILE_MIN: usize = 1_540;

/// The BLAKE2s digest of the bytes: RFC 7693, with no key and 32 bytes of output.
///
/// ```
/// let digest = thimmorel::digest(b"abc");
/// assert_eq!(digest[..4], [0x50, 0x8c, 0x5e, 0x8c]);
/// ```
pub fn digest(bytes: &[u8]) -> [u8; 32] {
    digest_by(ffi::thimmorel_digest, bytes)
}

/// The SHA-256 digest of the bytes: FIPS 180-4. The older model's digests are of this kind.
///
/// ```
/// let digest = thimmorel::sha256(b"abc");
/// assert_eq!(digest[..4], [0xba, 0x78, 0x16, 0xbf]);
/// ```
pub fn sha256(bytes: &[u8]) -> [u8; 32] {
    digest_by(ffi::thimmorel_sha256, bytes)
}

fn digest_by(call: unsafe extern "C" fn(*const u8, u64, *mut [u8; 32]), bytes: &[u8]) -> [u8; 32] {
    let mut digest = [0; 32];
    // SAFETY: the pointer and the length are those of one slice, and the array is a local, so they
    // do not overlap.
    unsafe { call(bytes.as_ptr(), bytes.len() as u64, &mut digest) };
    digest
}
