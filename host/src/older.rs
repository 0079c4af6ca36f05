//! The older single-chip model: the check of its firmware, with the V2 header by itself or behind a
//! legacy header, and what the signatures of both headers sign.

use crate::check::{accepted, Check};
use crate::ffi;
use crate::image::Version;
use crate::places;
use crate::refusal::Refusal;
use crate::shown;
use crate::signing;
use core::fmt;

/// What a check of the older model takes besides the bytes.
#[derive(Clone, Copy, Debug, PartialEq, Eq)]
pub struct OlderInputs {
    /// The current time, on the same scale as the V2 header's expiry.
    pub time: u32,
    /// How many keys the key sheet has: 3 to 255.
    pub keys: u32,
    /// The chip's verdicts on the three signatures of the legacy header. With a V2 header by itself
    /// they do not matter.
    pub legacy_verdicts: [bool; 3],
    /// The chip's verdicts on the three signatures of the V2 header.
    pub v2_verdicts: [bool; 3],
}

impl OlderInputs {
    /// As the archive takes them: 1 is yes.
    fn words(self) -> ffi::OlderInputs {
        ffi::OlderInputs {
            time: self.time,
            keys: self.keys,
            legacy_verdicts: self.legacy_verdicts.map(u32::from),
            v2_verdicts: self.v2_verdicts.map(u32::from),
        }
    }
}

/// Accepted firmware of the older model: what its V2 header says, and its code as a part of the
/// bytes that were lent.
#[derive(Clone, Copy, PartialEq, Eq)]
pub struct OlderImage<'a> {
    /// The firmware's version.
    pub version: Version,
    /// The firmware's fix version.
    pub fix_version: Version,
    /// The code.
    pub code: &'a [u8],
}

impl fmt::Debug for OlderImage<'_> {
    fn fmt(&self, f: &mut fmt::Formatter<'_>) -> fmt::Result {
        let versions = [self.version, self.fix_version];
        shown::versions_and_code(f, "OlderImage", versions, self.code)
    }
}

/// Checks a V2 header with its code that is a file: nothing may follow the code. Of the six verdicts,
/// those on the V2 header alone matter.
///
/// # Errors
///
/// The first step that fails is the refusal. `include/thimmorel.h` lists the steps in their order.
///
/// ```
/// use thimmorel::{check_v2_file, sha256, OlderInputs, Part, Reason};
///
/// let mut file = [0; 1028];
/// file[..4].copy_from_slice(b"TRZF");
/// file[4..8].copy_from_slice(&1024_u32.to_le_bytes());
/// file[12..16].copy_from_slice(&4_u32.to_le_bytes());
/// file[32..64].copy_from_slice(&sha256(b"code"));
/// file[736..739].copy_from_slice(&[1, 4, 5]); // these keys signed
/// file[1024..].copy_from_slice(b"code");
///
/// let (legacy_verdicts, v2_verdicts) = ([false; 3], [true; 3]);
/// let inputs = OlderInputs { time: 0, keys: 5, legacy_verdicts, v2_verdicts };
/// assert_eq!(check_v2_file(&file, inputs)?.code, b"code");
///
/// let refusal = check_v2_file(&file, OlderInputs { keys: 4, ..inputs }).unwrap_err();
/// assert_eq!((refusal.reason, refusal.part), (Reason::Sigmask, Some(Part::V2Header)));
/// # Ok::<(), thimmorel::Refusal>(())
/// ```
pub fn check_v2_file(bytes: &[u8], inputs: OlderInputs) -> Result<OlderImage<'_>, Refusal> {
    check(V2, ffi::thimmorel_check_v2_file, bytes, inputs)
}

/// Checks a V2 header with its code that is in a slot: the bytes after the code must be erased,
/// which is 255.
///
/// # Errors
///
/// As [`check_v2_file`], except for the bytes after the code.
///
/// ```
/// use thimmorel::{check_v2_slot, OlderInputs};
///
/// let (legacy_verdicts, v2_verdicts) = ([false; 3], [true; 3]);
/// let inputs = OlderInputs { time: 0, keys: 5, legacy_verdicts, v2_verdicts };
/// let erased = [255; 4096];
/// assert_eq!(
///     check_v2_slot(&erased, inputs).unwrap_err().to_string(),
///     "refused with 10 in the V2 header: \
///      the firmware header, or the V2 header, does not start with TRZF"
/// );
/// ```
pub fn check_v2_slot(bytes: &[u8], inputs: OlderInputs) -> Result<OlderImage<'_>, Refusal> {
    check(V2, ffi::thimmorel_check_v2_slot, bytes, inputs)
}

/// Checks the official pair that is a file: a legacy header, a V2 header and the code, and nothing
/// after it. All six verdicts matter.
///
/// # Errors
///
/// The first step that fails is the refusal. `include/thimmorel.h` lists the steps in their order.
///
/// ```
/// use thimmorel::{check_pair_file, sha256, OlderInputs, Part, Reason};
///
/// let mut file = [0; 1284];
/// file[..4].copy_from_slice(b"TRZR");
/// file[4..8].copy_from_slice(&1028_u32.to_le_bytes());
/// file[8..11].copy_from_slice(&[2, 1, 3]);
/// let v2 = &mut file[256..];
/// v2[..4].copy_from_slice(b"TRZF");
/// v2[4..8].copy_from_slice(&1024_u32.to_le_bytes());
/// v2[12..16].copy_from_slice(&4_u32.to_le_bytes());
/// v2[32..64].copy_from_slice(&sha256(b"code"));
/// v2[736..739].copy_from_slice(&[1, 4, 5]);
/// v2[1024..].copy_from_slice(b"code");
///
/// let (legacy_verdicts, v2_verdicts) = ([true; 3], [true; 3]);
/// let inputs = OlderInputs { time: 0, keys: 5, legacy_verdicts, v2_verdicts };
/// assert_eq!(check_pair_file(&file, inputs)?.code, b"code");
///
/// let inputs = OlderInputs { legacy_verdicts: [true, false, true], ..inputs };
/// let refusal = check_pair_file(&file, inputs).unwrap_err();
/// assert_eq!((refusal.reason, refusal.part), (Reason::Verdict, Some(Part::LegacyHeader)));
/// # Ok::<(), thimmorel::Refusal>(())
/// ```
pub fn check_pair_file(bytes: &[u8], inputs: OlderInputs) -> Result<OlderImage<'_>, Refusal> {
    check(PAIR, ffi::thimmorel_check_pair_file, bytes, inputs)
}

/// Checks the official pair that is in a slot: the bytes after the code must be erased, which is
/// 255.
///
/// # Errors
///
/// As [`check_pair_file`], except for the bytes after the code.
pub fn check_pair_slot(bytes: &[u8], inputs: OlderInputs) -> Result<OlderImage<'_>, Refusal> {
    check(PAIR, ffi::thimmorel_check_pair_slot, bytes, inputs)
}

/// What tells where the code of checked bytes is.
type FindCode = unsafe extern "C" fn(*const u8, u64, u32, *mut ffi::Span);

const V2: FindCode = ffi::thimmorel_find_v2_code;
const PAIR: FindCode = ffi::thimmorel_find_pair_code;

fn check(
    find: FindCode,
    call: Check<ffi::OlderInputs>,
    bytes: &[u8],
    inputs: OlderInputs,
) -> Result<OlderImage<'_>, Refusal> {
    let image = accepted(call, bytes, &inputs.words()).map_err(Refusal::of_older)?;
    let mut code = ffi::Span::default();
    // SAFETY: the pointer and the length are those of one slice, and the struct is a local, so they
    // do not overlap.
    unsafe { find(bytes.as_ptr(), bytes.len() as u64, 0, &mut code) };
    Ok(OlderImage {
        version: Version::from_word(image.version),
        fix_version: Version::from_word(image.fix_version),
        code: places::at(bytes, code).unwrap_or_default(),
    })
}

/// The digest that the signatures of a V2 header by itself sign. The three signatures are at
/// [`V2_SIGNATURES`](crate::V2_SIGNATURES), and the indexes of their keys at
/// [`V2_INDEXES`](crate::V2_INDEXES). The keys are your own.
///
/// # Errors
///
/// The header must be whole and pass its steps through the zero bytes. No key sheet, time, index or
/// verdict matters, and nothing after the header is looked at.
///
/// ```
/// use thimmorel::{v2_digest, V2_SIGNATURES};
///
/// let mut header = [0; 1024];
/// header[..4].copy_from_slice(b"TRZF");
/// header[4..8].copy_from_slice(&1024_u32.to_le_bytes());
/// header[12..16].copy_from_slice(&4_u32.to_le_bytes());
/// let digest = v2_digest(&header)?;
///
/// // The signatures and the indexes are not a part of what is signed.
/// header[V2_SIGNATURES..][..3 * 64 + 3].fill(9);
/// assert_eq!(v2_digest(&header)?, digest);
/// # Ok::<(), thimmorel::Refusal>(())
/// ```
pub fn v2_digest(bytes: &[u8]) -> Result<[u8; 32], Refusal> {
    ask(ffi::thimmorel_v2_digest, bytes)
}

/// The digest that the signatures of the V2 header in a pair sign. Its offsets count from the V2
/// header's start, which is at [`LEGACY_HEADER_SIZE`](crate::LEGACY_HEADER_SIZE).
///
/// # Errors
///
/// As [`v2_digest`], and the legacy header must pass its steps through the zero bytes too.
pub fn pair_v2_digest(bytes: &[u8]) -> Result<[u8; 32], Refusal> {
    ask(ffi::thimmorel_pair_v2_digest, bytes)
}

/// The digest that the signatures of the legacy header in a pair sign: that of the V2 header and the
/// code, as they are. The three signatures are at [`LEGACY_SIGNATURES`](crate::LEGACY_SIGNATURES),
/// and the indexes of their keys at [`LEGACY_INDEXES`](crate::LEGACY_INDEXES).
///
/// # Errors
///
/// The legacy header must pass its steps through the zero bytes, and what it signs must be there.
/// The V2 header is not judged.
pub fn pair_legacy_digest(bytes: &[u8]) -> Result<[u8; 32], Refusal> {
    ask(ffi::thimmorel_pair_legacy_digest, bytes)
}

fn ask(call: signing::Question, bytes: &[u8]) -> Result<[u8; 32], Refusal> {
    signing::ask(call, bytes).map_err(Refusal::of_older)
}
