//! The check of an image, in a file or in the slot.

use crate::ffi;
use crate::image::{Image, Version};
use crate::places;
use crate::refusal::Refusal;

/// What a check takes besides the bytes.
#[derive(Clone, Copy, Debug, PartialEq, Eq)]
pub struct Inputs {
    /// The current time, on the same scale as the headers' expiries.
    pub time: u32,
    /// How many keys must have signed the vendor header, no fewer and no more.
    pub m: u32,
    /// How many keys there are for the vendor header.
    pub n: u32,
    /// The chip's verdict on the vendor header's signature.
    pub vendor_verdict: bool,
    /// The chip's verdict on the firmware header's signature.
    pub firmware_verdict: bool,
}

impl Inputs {
    /// As the archive takes them: 1 is yes.
    pub(crate) fn words(self) -> ffi::Inputs {
        ffi::Inputs {
            time: self.time,
            m: self.m,
            n: self.n,
            vendor_verdict: self.vendor_verdict.into(),
            firmware_verdict: self.firmware_verdict.into(),
        }
    }
}

/// Checks an image that is a file: nothing may follow the code.
///
/// # Errors
///
/// The first step that fails is the refusal. `include/thimmorel.h` lists the steps in their order.
///
/// ```
/// use thimmorel::{check_file, write_firmware, write_vendor};
/// use thimmorel::{FirmwareHeader, Inputs, Part, Reason, VendorHeader};
///
/// let keys = [[7; 32]];
/// let vendor = VendorHeader { m: 1, keys: &keys, sigmask: 1, ..VendorHeader::default() };
/// let firmware = FirmwareHeader { vendor_length: 512, sigmask: 1, ..FirmwareHeader::default() };
/// let mut file = [0; 1540];
/// write_vendor(&vendor, &mut file)?;
/// write_firmware(&firmware, b"code", &mut file[512..])?;
/// file[1536..].copy_from_slice(b"code");
///
/// let inputs = Inputs { time: 0, m: 1, n: 1, vendor_verdict: true, firmware_verdict: true };
/// assert_eq!(check_file(&file, inputs)?.code, b"code");
///
/// file[1536] = b'm';
/// let refusal = check_file(&file, inputs).unwrap_err();
/// assert_eq!(refusal.reason, Reason::ChunkHash);
/// assert_eq!((refusal.part, refusal.chunk), (Some(Part::Code), Some(1)));
/// # Ok::<(), thimmorel::Refusal>(())
/// ```
pub fn check_file(bytes: &[u8], inputs: Inputs) -> Result<Image<'_>, Refusal> {
    check(ffi::thimmorel_check_file, bytes, inputs)
}

/// Checks an image that is in a slot: the bytes after the code must be erased, which is 255.
/// This is the check to make before the firmware is started.
///
/// # Errors
///
/// As [`check_file`], except for the bytes after the code.
///
/// ```
/// use thimmorel::{check_slot, Inputs, Reason};
///
/// let inputs = Inputs { time: 0, m: 2, n: 3, vendor_verdict: true, firmware_verdict: true };
/// let erased = [255; 4096];
/// assert_eq!(check_slot(&erased, inputs).unwrap_err().reason, Reason::VendorMagic);
/// ```
pub fn check_slot(bytes: &[u8], inputs: Inputs) -> Result<Image<'_>, Refusal> {
    check(ffi::thimmorel_check_slot, bytes, inputs)
}

/// One of the archive's checks, which takes the struct `Given` besides the bytes.
pub(crate) type Check<Given> =
    unsafe extern "C" fn(*const u8, u64, *const Given, *mut ffi::Answer, *mut ffi::Image) -> u32;

/// What a check tells of the headers that it accepts.
pub(crate) fn accepted<Given>(
    call: Check<Given>,
    bytes: &[u8],
    given: &Given,
) -> Result<ffi::Image, Refusal> {
    let mut answer = ffi::Answer::default();
    let mut image = ffi::Image::default();
    // SAFETY: the pointer and the length are those of one slice, and the structs are the caller's
    // and locals, so they do not overlap.
    let number = unsafe {
        call(
            bytes.as_ptr(),
            bytes.len() as u64,
            given,
            &mut answer,
            &mut image,
        )
    };
    Refusal::unless_zero_at(number, answer)?;
    Ok(image)
}

fn check(call: Check<ffi::Inputs>, bytes: &[u8], inputs: Inputs) -> Result<Image<'_>, Refusal> {
    let image = accepted(call, bytes, &inputs.words())?;
    let parts = parts(bytes);
    let part = |place| places::at(bytes, place).unwrap_or_default();
    Ok(Image {
        vendor_length: image.vendor_length as usize,
        version: Version::from_word(image.version),
        fix_version: Version::from_word(image.fix_version),
        string: part(parts.string),
        picture: part(parts.picture),
        code: part(parts.code),
    })
}

/// Where the parts of accepted bytes are.
fn parts(bytes: &[u8]) -> ffi::Parts {
    let mut parts = ffi::Parts::default();
    // SAFETY: the pointer and the length are those of one slice, and the struct is a local, so they
    // do not overlap.
    unsafe { ffi::thimmorel_find_parts(bytes.as_ptr(), bytes.len() as u64, 0, &mut parts) };
    parts
}
