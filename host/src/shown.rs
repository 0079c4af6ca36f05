//! How bytes are shown by `Debug`: a whole image would fill the screen, so most are told by their
//! number.

use crate::image::Version;
use core::fmt;

/// The number of the bytes.
pub(crate) struct Counted<'a>(pub &'a [u8]);

impl fmt::Debug for Counted<'_> {
    fn fmt(&self, f: &mut fmt::Formatter<'_>) -> fmt::Result {
        write!(f, "{} bytes", self.0.len())
    }
}

/// The number of the keys.
pub(crate) struct Keys<'a>(pub &'a [[u8; 32]]);

impl fmt::Debug for Keys<'_> {
    fn fmt(&self, f: &mut fmt::Formatter<'_>) -> fmt::Result {
        write!(f, "{} keys", self.0.len())
    }
}

/// A text, if it is short.
pub(crate) struct Text<'a>(pub &'a [u8]);

impl fmt::Debug for Text<'_> {
    fn fmt(&self, f: &mut fmt::Formatter<'_>) -> fmt::Result {
        match self.0.len() {
            0..=64 => write!(f, "b\"{}\"", self.0.escape_ascii()),
            _ => Counted(self.0).fmt(f),
        }
    }
}

/// A struct of two versions and code.
pub(crate) fn versions_and_code(
    f: &mut fmt::Formatter<'_>,
    name: &str,
    [version, fix_version]: [Version; 2],
    code: &[u8],
) -> fmt::Result {
    f.debug_struct(name)
        .field("version", &version)
        .field("fix_version", &fix_version)
        .field("code", &Counted(code))
        .finish()
}
