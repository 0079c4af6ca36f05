//! Places that the archive tells, as parts of the bytes that it was given.

use crate::ffi::Span;

/// The bytes at a place, or none where it does not fit.
pub(crate) fn at(bytes: &[u8], place: Span) -> Option<&[u8]> {
    let start = usize::try_from(place.start).ok()?;
    let length = usize::try_from(place.length).ok()?;
    bytes.get(start..)?.get(..length)
}
