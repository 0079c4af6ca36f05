//! Why a call refused: the reason, and for the checks the part of the image and the chunk.
//! Numbers and sentences are those of `include/thimmorel.h`, and tests/header.rs compares them.

use crate::ffi;
use core::error::Error;
use core::fmt;

/// A refusal. It reads as a sentence:
///
/// ```
/// use thimmorel::{vendor_digest, Part, Reason};
///
/// let refusal = vendor_digest(b"TRZ").unwrap_err();
/// assert_eq!(refusal.reason, Reason::VendorMagic);
/// assert_eq!(refusal.part, Some(Part::VendorHeader));
/// assert_eq!(
///     refusal.to_string(),
///     "refused with 1 in the vendor header: \
///      the bytes do not start with TRZV, for a loader with TRZB, or for a pair of the older model \
///      with TRZR"
/// );
/// ```
#[derive(Clone, Copy, Debug, PartialEq, Eq, Hash)]
pub struct Refusal {
    /// Which condition it was.
    pub reason: Reason,
    /// The part of the image that a check's refusal is about.
    pub part: Option<Part>,
    /// The chunk, from 1 to 16, with [`Reason::ChunkHash`] and [`Reason::UnusedHash`].
    pub chunk: Option<u32>,
}

impl Refusal {
    /// A refusal that is no refusal of a check.
    pub(crate) const fn of(reason: Reason) -> Refusal {
        Refusal {
            reason,
            part: None,
            chunk: None,
        }
    }

    /// The same refusal where the image is a loader: part 2 is then the loader's header.
    pub(crate) fn of_loader(self) -> Refusal {
        let part = self.part.map(|part| match part {
            Part::FirmwareHeader => Part::LoaderHeader,
            part => part,
        });
        Refusal { part, ..self }
    }

    /// The same refusal where the image is one of the older model: part 1 is then the legacy header,
    /// and part 2 the V2 header.
    pub(crate) fn of_older(self) -> Refusal {
        let part = self.part.map(|part| match part {
            Part::VendorHeader => Part::LegacyHeader,
            Part::FirmwareHeader => Part::V2Header,
            part => part,
        });
        Refusal { part, ..self }
    }

    /// `Ok` for the number 0.
    pub(crate) fn unless_zero(number: u32) -> Result<(), Refusal> {
        match Reason::from_number(number) {
            None => Ok(()),
            Some(reason) => Err(Refusal::of(reason)),
        }
    }

    /// The same for a call that also tells where it found the fault.
    pub(crate) fn unless_zero_at(number: u32, answer: ffi::Answer) -> Result<(), Refusal> {
        Refusal::unless_zero(number).map_err(|refusal| Refusal {
            part: Part::from_number(answer.part),
            chunk: (answer.chunk != 0).then_some(answer.chunk),
            ..refusal
        })
    }
}

impl fmt::Display for Refusal {
    fn fmt(&self, f: &mut fmt::Formatter<'_>) -> fmt::Result {
        write!(f, "refused with {}", self.reason.number())?;
        if let Some(part) = self.part {
            write!(f, " in the {part}")?;
        }
        if let Some(chunk) = self.chunk {
            write!(f, ", chunk {chunk}")?;
        }
        write!(f, ": {}", self.reason)
    }
}

impl Error for Refusal {}

/// A part of an image.
#[derive(Clone, Copy, Debug, PartialEq, Eq, Hash)]
#[non_exhaustive]
pub enum Part {
    /// The vendor header.
    VendorHeader,
    /// The firmware header.
    FirmwareHeader,
    /// The header of a loader.
    LoaderHeader,
    /// The legacy header of the older model.
    LegacyHeader,
    /// The V2 header of the older model.
    V2Header,
    /// The code.
    Code,
}

impl Part {
    fn from_number(number: u32) -> Option<Part> {
        match number {
            1 => Some(Part::VendorHeader),
            2 => Some(Part::FirmwareHeader),
            3 => Some(Part::Code),
            _ => None,
        }
    }
}

impl fmt::Display for Part {
    fn fmt(&self, f: &mut fmt::Formatter<'_>) -> fmt::Result {
        f.write_str(match self {
            Part::VendorHeader => "vendor header",
            Part::FirmwareHeader => "firmware header",
            Part::LoaderHeader => "loader header",
            Part::LegacyHeader => "legacy header",
            Part::V2Header => "V2 header",
            Part::Code => "code",
        })
    }
}

/// Makes the enum, and what tells the number and the sentence of each reason.
macro_rules! reasons {
    ($($number:literal $name:ident $sentence:literal)*) => {
        /// The condition of a refusal. Each has one number and one meaning in all calls.
        #[derive(Clone, Copy, Debug, PartialEq, Eq, Hash)]
        #[non_exhaustive]
        pub enum Reason {
            $(#[doc = concat!("Number ", $number, ": ", $sentence, ".")] $name,)*
            /// A number that this version of the wrapper does not know.
            Other(u32),
        }

        impl Reason {
            /// The reason with this number, and none for 0, which is success.
            pub const fn from_number(number: u32) -> Option<Reason> {
                match number {
                    0 => None,
                    $($number => Some(Reason::$name),)*
                    _ => Some(Reason::Other(number)),
                }
            }

            /// The number of `enum thimmorel_error`.
            pub const fn number(self) -> u32 {
                match self {
                    $(Reason::$name => $number,)*
                    Reason::Other(number) => number,
                }
            }

            const fn sentence(self) -> &'static str {
                match self {
                    $(Reason::$name => $sentence,)*
                    Reason::Other(_) => "no call of this version gives this number",
                }
            }
        }
    };
}

reasons! {
    1 VendorMagic "the bytes do not start with TRZV, for a loader with TRZB, or for a pair of the \
        older model with TRZR"
    2 TooShort "the bytes end before this part of the image does"
    3 VendorLength "the length of the vendor header is not a multiple of 512 from 512 to 65,536"
    4 VendorKeys "the vendor header's key numbers are not 1 <= vsig_m <= vsig_n <= 8"
    5 StringLength "the vendor string leaves no room for the signature"
    6 NotZero "a byte of the header that must be zero is not"
    7 Expired "the time is later than the header's expiry"
    8 Sigmask "the sigmask names a key index of n or above, or does not name exactly m keys; in the \
        older model, a key index is 0 or above the number of keys, or two are equal"
    9 Verdict "the verdict on the header's signature is no, or in the older model on one of its three"
    10 FirmwareMagic "the firmware header, or the V2 header, does not start with TRZF"
    11 FirmwareLength "the firmware header, a loader's or the V2 header does not give its length as \
        1,024"
    12 CodeLength "the code length is 0, not a multiple of 4, or more than an image holds; in the \
        legacy header it is under 1,028, or that of the V2 header behind it is not 1,024 less"
    13 BytesFollow "bytes follow the code: any byte in a file, a byte other than 255 in a slot or the \
        internal area, a byte other than 0 on a card"
    14 ChunkHash "the code in a chunk does not have the digest that its header gives"
    15 UnusedHash "the hash of a chunk without code is not all zero"
    16 Policy "the caller's key policy is not 1 <= m <= n <= 8, or the older model's key sheet does \
        not have 3 to 255 keys"
    17 NoRoom "chunk 1 has no room for code"
    18 FileLength "the file length is not a multiple of 4, is under 1,540, or is above the slot's \
        length"
    19 Turn "the session is over or not ready for this call, the slot's length is not that at \
        begin, or the record is inconsistent"
    20 FieldLength "the keys are not 32 * n bytes, or the string is over 255 bytes"
    21 OutputLength "the output is shorter than the header"
    22 SlotLength "the slot's length is not a multiple of 4,096 from 4,096 to 2,097,152"
    23 NotErased "the slot's word that would be overwritten is not erased"
    27 NotLanded "the file's first word does not stand in the slot"
    28 FieldRange "a number does not fit its field of the header"
}

impl fmt::Display for Reason {
    fn fmt(&self, f: &mut fmt::Formatter<'_>) -> fmt::Result {
        f.write_str(self.sentence())
    }
}
