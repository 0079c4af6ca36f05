//! Loaders: the check of a memory card and of the internal area, what a loader's signature signs,
//! and the choice of the loader to run.

use crate::check::{accepted, Check};
use crate::ffi;
use crate::image::Version;
use crate::places;
use crate::refusal::Refusal;
use crate::shown::{self, Counted};
use crate::signing;
use crate::LOADER_HEADER_SIZE;
use core::fmt;

/// What the check of a loader, and the choice of one, takes besides the bytes.
#[derive(Clone, Copy, Debug, PartialEq, Eq)]
pub struct LoaderInputs {
    /// The current time, on the same scale as the headers' expiries.
    pub time: u32,
    /// How many keys must have signed a loader, no fewer and no more.
    pub m: u32,
    /// How many keys there are for loaders.
    pub n: u32,
    /// The chip's verdict on the signature of the card's loader.
    pub card_verdict: bool,
    /// The chip's verdict on the signature of the internal loader.
    pub internal_verdict: bool,
}

impl LoaderInputs {
    /// As the archive takes them: 1 is yes.
    fn words(self) -> ffi::LoaderInputs {
        ffi::LoaderInputs {
            time: self.time,
            m: self.m,
            n: self.n,
            card_verdict: self.card_verdict.into(),
            internal_verdict: self.internal_verdict.into(),
        }
    }
}

/// An accepted loader: what its header says, and its code as a part of the bytes that were lent.
#[derive(Clone, Copy, PartialEq, Eq)]
pub struct Loader<'a> {
    /// The loader's version.
    pub version: Version,
    /// The loader's fix version.
    pub fix_version: Version,
    /// The code.
    pub code: &'a [u8],
}

impl fmt::Debug for Loader<'_> {
    fn fmt(&self, f: &mut fmt::Formatter<'_>) -> fmt::Result {
        shown::versions_and_code(f, "Loader", [self.version, self.fix_version], self.code)
    }
}

/// Checks the loader on a memory card: the bytes after its code must be 0. Of the two verdicts, the
/// card's alone matters.
///
/// # Errors
///
/// The first step that fails is the refusal. `include/thimmorel.h` lists the steps in their order.
///
/// ```
/// use thimmorel::{check_card, digest, LoaderInputs, Part, Reason};
///
/// let mut card = [0; 4096];
/// card[..4].copy_from_slice(b"TRZB");
/// card[4..8].copy_from_slice(&1024_u32.to_le_bytes());
/// card[12..16].copy_from_slice(&4_u32.to_le_bytes());
/// card[32..64].copy_from_slice(&digest(b"code"));
/// card[959] = 0b011; // keys 0 and 1 signed
/// card[1024..1028].copy_from_slice(b"code");
///
/// let inputs = LoaderInputs { time: 0, m: 2, n: 3, card_verdict: true, internal_verdict: false };
/// assert_eq!(check_card(&card, inputs)?.code, b"code");
///
/// card[1028] = 255;
/// let refusal = check_card(&card, inputs).unwrap_err();
/// assert_eq!((refusal.reason, refusal.part), (Reason::BytesFollow, Some(Part::Code)));
/// # Ok::<(), thimmorel::Refusal>(())
/// ```
pub fn check_card(bytes: &[u8], inputs: LoaderInputs) -> Result<Loader<'_>, Refusal> {
    check(ffi::thimmorel_check_card, bytes, inputs)
}

/// Checks the loader in the internal area: the bytes after its code must be erased, which is 255.
/// Of the two verdicts, the internal one alone matters.
///
/// # Errors
///
/// As [`check_card`], except for the bytes after the code.
///
/// ```
/// use thimmorel::{check_internal, LoaderInputs};
///
/// let inputs = LoaderInputs { time: 0, m: 2, n: 3, card_verdict: false, internal_verdict: true };
/// let erased = [255; 4096];
/// assert_eq!(
///     check_internal(&erased, inputs).unwrap_err().to_string(),
///     "refused with 1 in the loader header: \
///      the bytes do not start with TRZV, for a loader with TRZB, or for a pair of the older model \
///      with TRZR"
/// );
/// ```
pub fn check_internal(bytes: &[u8], inputs: LoaderInputs) -> Result<Loader<'_>, Refusal> {
    check(ffi::thimmorel_check_internal, bytes, inputs)
}

fn check(
    call: Check<ffi::LoaderInputs>,
    bytes: &[u8],
    inputs: LoaderInputs,
) -> Result<Loader<'_>, Refusal> {
    let image = accepted(call, bytes, &inputs.words()).map_err(Refusal::of_loader)?;
    let code = ffi::Span {
        start: LOADER_HEADER_SIZE as u64,
        length: image.code_length.into(),
    };
    Ok(Loader {
        version: Version::from_word(image.version),
        fix_version: Version::from_word(image.fix_version),
        code: places::at(bytes, code).unwrap_or_default(),
    })
}

/// The digest that a loader's signature signs, on a card or in the internal area. The sigmask is
/// the byte at 959, and the signature the 64 bytes from 960 on. The keys are your own.
///
/// # Errors
///
/// S1, the header's length, S14, S16 and S17 must hold. No time, policy or verdict matters, and
/// nothing after the header is looked at.
///
/// ```
/// use thimmorel::loader_digest;
///
/// let mut header = [0; 1024];
/// header[..4].copy_from_slice(b"TRZB");
/// header[4..8].copy_from_slice(&1024_u32.to_le_bytes());
/// header[12..16].copy_from_slice(&4_u32.to_le_bytes());
/// let digest = loader_digest(&header)?;
///
/// // The signature is not a part of what is signed.
/// header[959..].fill(9);
/// assert_eq!(loader_digest(&header)?, digest);
/// # Ok::<(), thimmorel::Refusal>(())
/// ```
pub fn loader_digest(bytes: &[u8]) -> Result<[u8; 32], Refusal> {
    signing::ask(ffi::thimmorel_loader_digest, bytes).map_err(Refusal::of_loader)
}

/// An area that holds a loader.
#[derive(Clone, Copy, Debug, PartialEq, Eq, Hash)]
pub enum Area {
    /// The memory card.
    Card,
    /// The internal area.
    Internal,
}

/// The loader to run, as a part of the area that holds it.
#[derive(Clone, Copy, PartialEq, Eq)]
pub struct Chosen<'a> {
    /// The area that holds it.
    pub area: Area,
    /// Its header and its code.
    pub bytes: &'a [u8],
}

impl<'a> Chosen<'a> {
    /// The code alone.
    pub fn code(&self) -> &'a [u8] {
        self.bytes.get(LOADER_HEADER_SIZE..).unwrap_or_default()
    }
}

impl fmt::Debug for Chosen<'_> {
    fn fmt(&self, f: &mut fmt::Formatter<'_>) -> fmt::Result {
        f.debug_struct("Chosen")
            .field("area", &self.area)
            .field("bytes", &Counted(self.bytes))
            .finish()
    }
}

/// Chooses the loader to run: the card's if [`check_card`] accepts the card, otherwise the internal
/// one if [`check_internal`] accepts the internal area. If there is no card, lend no bytes. The
/// versions of the two are not compared, and with an accepted card the internal area is not checked.
///
/// # Errors
///
/// If neither is accepted, the refusal is that of the internal area.
///
/// ```
/// use thimmorel::{choose_loader, digest, Area, LoaderInputs, Reason};
///
/// let mut internal = [255; 4096];
/// internal[..1024].fill(0);
/// internal[..4].copy_from_slice(b"TRZB");
/// internal[4..8].copy_from_slice(&1024_u32.to_le_bytes());
/// internal[12..16].copy_from_slice(&4_u32.to_le_bytes());
/// internal[32..64].copy_from_slice(&digest(b"code"));
/// internal[959] = 0b011; // keys 0 and 1 signed
/// internal[1024..1028].copy_from_slice(b"code");
///
/// let inputs = LoaderInputs { time: 0, m: 2, n: 3, card_verdict: false, internal_verdict: true };
/// let chosen = choose_loader(&[], &internal, inputs)?;
/// assert_eq!(chosen.area, Area::Internal);
/// assert_eq!(chosen.bytes, &internal[..1028]);
/// assert_eq!(chosen.code(), b"code");
///
/// let inputs = LoaderInputs { internal_verdict: false, ..inputs };
/// let refusal = choose_loader(&[], &internal, inputs).unwrap_err();
/// assert_eq!(refusal.reason, Reason::Verdict);
/// # Ok::<(), thimmorel::Refusal>(())
/// ```
pub fn choose_loader<'a>(
    card: &'a [u8],
    internal: &'a [u8],
    inputs: LoaderInputs,
) -> Result<Chosen<'a>, Refusal> {
    let mut answer = ffi::Answer::default();
    let mut loader = ffi::Loader::default();
    // SAFETY: each pointer and the length behind it are those of one slice, and the structs are
    // locals, so they do not overlap.
    let number = unsafe {
        ffi::thimmorel_choose_loader(
            card.as_ptr(),
            card.len() as u64,
            internal.as_ptr(),
            internal.len() as u64,
            &inputs.words(),
            &mut answer,
            &mut loader,
        )
    };
    Refusal::unless_zero_at(number, answer).map_err(Refusal::of_loader)?;
    // With number 0 the area is 1 or 2.
    let (area, bytes) = match loader.area {
        1 => (Area::Card, card),
        _ => (Area::Internal, internal),
    };
    Ok(Chosen {
        area,
        bytes: places::at(bytes, loader.place).unwrap_or_default(),
    })
}
