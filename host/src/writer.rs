//! The writers of both headers. A refused writer leaves its output as it was. One that succeeds
//! writes the header at the output's start, and the bytes past it stay.

use crate::ffi;
use crate::image::Version;
use crate::refusal::Refusal;
use crate::shown::{Counted, Keys, Text};
use core::fmt;

/// What a vendor header says. By default every field is 0 or empty, and the header never expires.
#[derive(Clone, Copy, PartialEq, Eq)]
pub struct VendorHeader<'a> {
    /// The last time at which the header is valid, or 0 for no expiry.
    pub expiry: u32,
    /// The major version.
    pub major: u8,
    /// The minor version.
    pub minor: u8,
    /// How many of the keys must sign firmware, no fewer and no more.
    pub m: u8,
    /// The keys, from 1 to 8 of them.
    pub keys: &'a [[u8; 32]],
    /// See [`Trust`](crate::Trust).
    pub vtrust: u16,
    /// The string, at most 255 bytes.
    pub string: &'a [u8],
    /// The picture, or a whole picture area. Zeros follow it.
    pub picture: &'a [u8],
    /// Which keys signed this header. The writer does not check it.
    pub sigmask: u8,
    /// The signature of this header.
    pub sig: [u8; 64],
}

impl Default for VendorHeader<'_> {
    fn default() -> Self {
        VendorHeader {
            expiry: 0,
            major: 0,
            minor: 0,
            m: 0,
            keys: &[],
            vtrust: 0,
            string: &[],
            picture: &[],
            sigmask: 0,
            sig: [0; 64],
        }
    }
}

impl fmt::Debug for VendorHeader<'_> {
    fn fmt(&self, f: &mut fmt::Formatter<'_>) -> fmt::Result {
        f.debug_struct("VendorHeader")
            .field("expiry", &self.expiry)
            .field("major", &self.major)
            .field("minor", &self.minor)
            .field("m", &self.m)
            .field("keys", &Keys(self.keys))
            .field("vtrust", &format_args!("{:#06x}", self.vtrust))
            .field("string", &Text(self.string))
            .field("picture", &Counted(self.picture))
            .field("sigmask", &format_args!("{:#04x}", self.sigmask))
            .field("sig", &Counted(&self.sig))
            .finish()
    }
}

/// What a firmware header says besides what it says of its code. By default every field is 0, and
/// the header never expires.
#[derive(Clone, Copy, PartialEq, Eq)]
pub struct FirmwareHeader {
    /// The length v of the vendor header that will precede this one.
    pub vendor_length: u32,
    /// The last time at which the header is valid, or 0 for no expiry.
    pub expiry: u32,
    /// The version.
    pub version: Version,
    /// The fix version.
    pub fix_version: Version,
    /// Which of the vendor's keys signed this header. The writer does not check it.
    pub sigmask: u8,
    /// The signature of this header.
    pub sig: [u8; 64],
}

impl Default for FirmwareHeader {
    fn default() -> Self {
        FirmwareHeader {
            vendor_length: 0,
            expiry: 0,
            version: Version::default(),
            fix_version: Version::default(),
            sigmask: 0,
            sig: [0; 64],
        }
    }
}

impl fmt::Debug for FirmwareHeader {
    fn fmt(&self, f: &mut fmt::Formatter<'_>) -> fmt::Result {
        f.debug_struct("FirmwareHeader")
            .field("vendor_length", &self.vendor_length)
            .field("expiry", &self.expiry)
            .field("version", &self.version)
            .field("fix_version", &self.fix_version)
            .field("sigmask", &format_args!("{:#04x}", self.sigmask))
            .field("sig", &Counted(&self.sig))
            .finish()
    }
}

/// Writes a vendor header, and tells its length v: the least multiple of 512 that holds the fields.
///
/// # Errors
///
/// In this order: [`VendorKeys`](crate::Reason::VendorKeys) if not 1 ≤ m ≤ n ≤ 8 for n keys;
/// [`FieldLength`](crate::Reason::FieldLength) if the string is over 255 bytes;
/// [`VendorLength`](crate::Reason::VendorLength) if v would be above 65,536;
/// [`OutputLength`](crate::Reason::OutputLength) if the output is shorter than v.
///
/// ```
/// use thimmorel::{write_vendor, Reason, VendorHeader};
///
/// let keys = [[7; 32]; 2];
/// let mut out = [0xee; 600];
/// let fields = VendorHeader { m: 1, keys: &keys, ..VendorHeader::default() };
/// assert_eq!(write_vendor(&fields, &mut out)?, 512);
/// assert_eq!(out[..4], *b"TRZV");
/// assert_eq!(out[512..], [0xee; 88]);
///
/// let refusal = write_vendor(&fields, &mut out[..511]).unwrap_err();
/// assert_eq!(refusal.reason, Reason::OutputLength);
/// # Ok::<(), thimmorel::Refusal>(())
/// ```
pub fn write_vendor(fields: &VendorHeader, out: &mut [u8]) -> Result<usize, Refusal> {
    let numbers = ffi::VendorNumbers {
        expiry: fields.expiry,
        major: fields.major.into(),
        minor: fields.minor.into(),
        m: fields.m.into(),
        n: u32::try_from(fields.keys.len()).unwrap_or(u32::MAX),
        vtrust: fields.vtrust.into(),
        sigmask: fields.sigmask.into(),
    };
    let keys = fields.keys.as_flattened();
    let mut written = 0;
    // SAFETY: each pointer and length are those of one slice; the output is borrowed mutably and
    // the numbers are locals, so nothing that is written overlaps anything.
    let number = unsafe {
        ffi::thimmorel_write_vendor(
            &numbers,
            keys.as_ptr(),
            keys.len() as u64,
            fields.string.as_ptr(),
            fields.string.len() as u64,
            fields.picture.as_ptr(),
            fields.picture.len() as u64,
            &fields.sig,
            out.as_mut_ptr(),
            out.len() as u64,
            &mut written,
        )
    };
    Refusal::unless_zero(number)?;
    Ok(written as usize)
}

/// Writes a firmware header for code that will follow it, and tells the header's length, 1,024.
///
/// # Errors
///
/// In this order: [`VendorLength`](crate::Reason::VendorLength) if `vendor_length` is not a
/// multiple of 512 from 512 to 65,536; [`CodeLength`](crate::Reason::CodeLength) if the code's
/// length is 0, not a multiple of 4, or above 2,097,152 − 1,024 − `vendor_length`;
/// [`OutputLength`](crate::Reason::OutputLength) if the output is shorter than 1,024.
///
/// ```
/// use thimmorel::{write_firmware, FirmwareHeader};
///
/// let mut out = [0; 1024];
/// let fields = FirmwareHeader { vendor_length: 512, ..FirmwareHeader::default() };
/// assert_eq!(write_firmware(&fields, b"code", &mut out)?, 1024);
/// assert_eq!(out[32..64], thimmorel::digest(b"code"));
/// # Ok::<(), thimmorel::Refusal>(())
/// ```
pub fn write_firmware(
    fields: &FirmwareHeader,
    code: &[u8],
    out: &mut [u8],
) -> Result<usize, Refusal> {
    let numbers = ffi::FirmwareNumbers {
        vendor_length: fields.vendor_length,
        expiry: fields.expiry,
        version: fields.version.word(),
        fix_version: fields.fix_version.word(),
        sigmask: fields.sigmask.into(),
    };
    let mut written = 0;
    // SAFETY: each pointer and length are those of one slice; the output is borrowed mutably and
    // the numbers are locals, so nothing that is written overlaps anything.
    let number = unsafe {
        ffi::thimmorel_write_firmware(
            &numbers,
            code.as_ptr(),
            code.len() as u64,
            &fields.sig,
            out.as_mut_ptr(),
            out.len() as u64,
            &mut written,
        )
    };
    Refusal::unless_zero(number)?;
    Ok(written as usize)
}
