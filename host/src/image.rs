//! What the check of an image tells once it has accepted it.

use crate::shown::{Counted, Text};
use core::fmt;

/// A version. A later one is greater.
#[derive(Clone, Copy, Debug, Default, PartialEq, Eq, PartialOrd, Ord, Hash)]
pub struct Version {
    /// The part that counts most.
    pub major: u8,
    /// The second part.
    pub minor: u8,
    /// The third part.
    pub patch: u8,
    /// The part that counts least.
    pub build: u8,
}

impl Version {
    /// The version as it stands in a firmware header.
    pub const fn bytes(self) -> [u8; 4] {
        [self.major, self.minor, self.patch, self.build]
    }

    /// The version as one word, the major part in its low 8 bits.
    pub(crate) fn word(self) -> u32 {
        u32::from_le_bytes(self.bytes())
    }

    /// The version from such a word.
    pub(crate) fn from_word(word: u32) -> Version {
        let [major, minor, patch, build] = word.to_le_bytes();
        Version {
            major,
            minor,
            patch,
            build,
        }
    }
}

impl fmt::Display for Version {
    fn fmt(&self, f: &mut fmt::Formatter<'_>) -> fmt::Result {
        let [major, minor, patch, build] = self.bytes();
        write!(f, "{major}.{minor}.{patch}.{build}")
    }
}

/// An accepted image: what its headers say, and its parts as parts of the bytes that were lent.
#[derive(Clone, Copy, PartialEq, Eq)]
pub struct Image<'a> {
    /// The length v of the vendor header.
    pub vendor_length: usize,
    /// The firmware's version.
    pub version: Version,
    /// The firmware's fix version.
    pub fix_version: Version,
    /// The vendor's string.
    pub string: &'a [u8],
    /// The vendor's picture area, its padding counted in.
    pub picture: &'a [u8],
    /// The code.
    pub code: &'a [u8],
}

impl fmt::Debug for Image<'_> {
    fn fmt(&self, f: &mut fmt::Formatter<'_>) -> fmt::Result {
        f.debug_struct("Image")
            .field("vendor_length", &self.vendor_length)
            .field("version", &self.version)
            .field("fix_version", &self.fix_version)
            .field("string", &Text(self.string))
            .field("picture", &Counted(self.picture))
            .field("code", &Counted(self.code))
            .finish()
    }
}
