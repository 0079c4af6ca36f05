//! What the signatures of the two headers sign, and what else the chip needs to verify them.

use crate::ffi;
use crate::places;
use crate::refusal::Refusal;
use crate::shown::{Counted, Keys};
use core::fmt;

pub(crate) type Question =
    unsafe extern "C" fn(*const u8, u64, *mut ffi::Answer, *mut [u8; 32]) -> u32;

/// The digest that the vendor header's signature signs.
///
/// # Errors
///
/// The header must pass S1 and S3 to S8 of the check. No time, policy or verdict matters, and
/// nothing after the header is looked at.
///
/// ```
/// use thimmorel::{vendor_digest, write_vendor, VendorHeader};
///
/// let keys = [[7; 32]];
/// let mut header = [0; 512];
/// let fields = VendorHeader { m: 1, keys: &keys, ..VendorHeader::default() };
/// write_vendor(&fields, &mut header)?;
/// let digest = vendor_digest(&header)?;
///
/// // The signature is not a part of what is signed.
/// write_vendor(&VendorHeader { sigmask: 1, sig: [9; 64], ..fields }, &mut header)?;
/// assert_eq!(vendor_digest(&header)?, digest);
/// # Ok::<(), thimmorel::Refusal>(())
/// ```
pub fn vendor_digest(bytes: &[u8]) -> Result<[u8; 32], Refusal> {
    ask(ffi::thimmorel_vendor_digest, bytes)
}

/// The digest that the firmware header's signature signs.
///
/// # Errors
///
/// Both headers count: S1, S3 to S8 and S12 to S17 must hold. The code need not be present.
pub fn firmware_digest(bytes: &[u8]) -> Result<[u8; 32], Refusal> {
    ask(ffi::thimmorel_firmware_digest, bytes)
}

pub(crate) fn ask(call: Question, bytes: &[u8]) -> Result<[u8; 32], Refusal> {
    let mut answer = ffi::Answer::default();
    let mut digest = [0; 32];
    // SAFETY: the pointer and the length are those of one slice, and what is written are locals, so
    // they do not overlap.
    let number = unsafe { call(bytes.as_ptr(), bytes.len() as u64, &mut answer, &mut digest) };
    Refusal::unless_zero_at(number, answer)?;
    Ok(digest)
}

/// What the chip needs to verify a header's signature, beside the digest.
#[derive(Clone, Copy, PartialEq, Eq)]
pub struct Signature<'a> {
    /// Which keys signed: bit i for key i.
    pub sigmask: u8,
    /// The signature.
    pub sig: &'a [u8; 64],
    /// For the firmware header the vendor's keys. For the vendor header there are none here: its
    /// keys are your own.
    pub keys: &'a [[u8; 32]],
    /// How many of these keys must sign, no fewer and no more. For the vendor header 0: its policy
    /// is your own.
    pub m: u32,
    /// How many of these keys there are.
    pub n: u32,
}

impl fmt::Debug for Signature<'_> {
    fn fmt(&self, f: &mut fmt::Formatter<'_>) -> fmt::Result {
        f.debug_struct("Signature")
            .field("sigmask", &format_args!("{:#04x}", self.sigmask))
            .field("sig", &Counted(self.sig))
            .field("keys", &Keys(self.keys))
            .field("m", &self.m)
            .field("n", &self.n)
            .finish()
    }
}

impl<'a> Signature<'a> {
    /// From the places in the bytes. There is none where a place is empty or does not fit.
    pub(crate) fn at(bytes: &'a [u8], found: &ffi::Signature) -> Option<Signature<'a>> {
        let [sigmask] = *places::at(bytes, found.sigmask)? else {
            return None;
        };
        Some(Signature {
            sigmask,
            sig: places::at(bytes, found.sig)?.try_into().ok()?,
            keys: keys(places::at(bytes, found.keys)?)?,
            m: found.m.try_into().ok()?,
            n: found.n.try_into().ok()?,
        })
    }
}

/// Bytes as keys of 32 bytes each, if none is left over.
fn keys(bytes: &[u8]) -> Option<&[[u8; 32]]> {
    let first = bytes.as_ptr().cast::<[u8; 32]>();
    match bytes.len() % 32 {
        // SAFETY: so many keys are the bytes of one slice. A key is aligned as a byte is.
        0 => Some(unsafe { core::slice::from_raw_parts(first, bytes.len() / 32) }),
        _ => None,
    }
}

/// What the chip needs for the vendor header's signature. There is none where [`vendor_digest`]
/// refuses the bytes.
///
/// ```
/// use thimmorel::{vendor_signature, write_vendor, VendorHeader};
///
/// let keys = [[7; 32]];
/// let mut header = [0; 512];
/// let fields = VendorHeader { m: 1, keys: &keys, ..VendorHeader::default() };
/// write_vendor(&VendorHeader { sigmask: 5, sig: [9; 64], ..fields }, &mut header)?;
/// let signature = vendor_signature(&header).unwrap();
/// assert_eq!((signature.sigmask, signature.sig), (5, &[9; 64]));
/// assert_eq!(vendor_signature(&header[..511]), None);
/// # Ok::<(), thimmorel::Refusal>(())
/// ```
pub fn vendor_signature(bytes: &[u8]) -> Option<Signature<'_>> {
    let mut found = ffi::Signature::default();
    // SAFETY: the pointer and the length are those of one slice, and the struct is a local, so they
    // do not overlap.
    unsafe {
        ffi::thimmorel_find_vendor_signature(bytes.as_ptr(), bytes.len() as u64, &mut found);
    }
    Signature::at(bytes, &found)
}

/// What the chip needs for the firmware header's signature. There is none where
/// [`firmware_digest`] refuses the bytes.
pub fn firmware_signature(bytes: &[u8]) -> Option<Signature<'_>> {
    let mut found = ffi::Signature::default();
    // SAFETY: the pointer and the length are those of one slice, and the struct is a local, so they
    // do not overlap.
    unsafe {
        ffi::thimmorel_find_firmware_signature(bytes.as_ptr(), bytes.len() as u64, &mut found);
    }
    Signature::at(bytes, &found)
}

#[cfg(test)]
mod tests {
    use super::{ffi, Signature};

    fn span(start: u64, length: u64) -> ffi::Span {
        ffi::Span { start, length }
    }

    const fn good() -> ffi::Signature {
        ffi::Signature {
            sigmask: ffi::Span {
                start: 0,
                length: 1,
            },
            sig: ffi::Span {
                start: 1,
                length: 64,
            },
            keys: ffi::Span {
                start: 65,
                length: 64,
            },
            m: 1,
            n: 2,
        }
    }

    /// Whatever the archive tells, there is a signature or none.
    #[test]
    fn places_that_do_not_fit() {
        let bytes = [7; 129];
        let found = Signature::at(&bytes, &good()).expect("it fits");
        assert_eq!((found.sigmask, found.sig), (7, &[7; 64]));
        assert_eq!((found.keys, found.m, found.n), (&[[7; 32]; 2][..], 1, 2));
        assert_eq!(Signature::at(&bytes[..128], &good()), None);

        for sigmask in [span(0, 0), span(0, 2), span(129, 1), span(u64::MAX, 1)] {
            assert_eq!(
                Signature::at(&bytes, &ffi::Signature { sigmask, ..good() }),
                None
            );
        }
        for sig in [span(0, 0), span(0, 63), span(66, 64), span(1, u64::MAX)] {
            assert_eq!(
                Signature::at(&bytes, &ffi::Signature { sig, ..good() }),
                None
            );
        }
        for keys in [span(65, 33), span(130, 0), span(u64::MAX, u64::MAX)] {
            assert_eq!(
                Signature::at(&bytes, &ffi::Signature { keys, ..good() }),
                None
            );
        }
        let (m, n) = (1 << 32, u64::MAX);
        assert_eq!(Signature::at(&bytes, &ffi::Signature { m, ..good() }), None);
        assert_eq!(Signature::at(&bytes, &ffi::Signature { n, ..good() }), None);
    }
}
