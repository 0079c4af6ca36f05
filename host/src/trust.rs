//! How far a vendor is trusted: what its header says about starting its firmware.

use crate::ffi;

/// The vendor trust of a vendor header.
#[derive(Clone, Copy, Debug, PartialEq, Eq)]
pub struct Trust {
    /// How many seconds to wait, from 0 to 15.
    pub seconds: u32,
    /// Whether the background is red.
    pub red_background: bool,
    /// Whether a click is needed.
    pub click_needed: bool,
    /// Whether the string is shown.
    pub string_shown: bool,
    /// Whether the pairing secret is allowed.
    pub secret_allowed: bool,
}

impl Trust {
    /// Reads the vendor header at the start of the bytes. A feature is active if its bit is unset.
    /// Read it from bytes that a check accepted: a byte past the end counts as 0.
    ///
    /// ```
    /// use thimmorel::{write_vendor, Trust, VendorHeader};
    ///
    /// let keys = [[7; 32]];
    /// let mut header = [0; 512];
    /// let fields = VendorHeader { m: 1, keys: &keys, ..VendorHeader::default() };
    /// write_vendor(&VendorHeader { vtrust: 0xfff6, ..fields }, &mut header)?;
    /// let trust = Trust::read(&header);
    /// assert_eq!(trust.seconds, 9);
    /// assert!(!trust.red_background);
    /// # Ok::<(), thimmorel::Refusal>(())
    /// ```
    pub fn read(bytes: &[u8]) -> Trust {
        let mut trust = ffi::Trust::default();
        // SAFETY: the pointer and the length are those of one slice, and the struct is a local, so
        // they do not overlap.
        unsafe { ffi::thimmorel_read_trust(bytes.as_ptr(), bytes.len() as u64, &mut trust) };
        Trust {
            seconds: trust.seconds,
            red_background: trust.red_background == 1,
            click_needed: trust.click_needed == 1,
            string_shown: trust.string_shown == 1,
            secret_allowed: trust.secret_allowed == 1,
        }
    }
}
