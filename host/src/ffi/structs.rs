//! The structs of the header.

/// What a check is given besides the bytes.
#[repr(C)]
#[derive(Clone, Copy, Debug, Default, PartialEq, Eq)]
pub struct Inputs {
    /// The current time.
    pub time: u32,
    /// How many keys must have signed the vendor header, no fewer and no more.
    pub m: u32,
    /// How many keys there are for the vendor header.
    pub n: u32,
    /// 1 is yes, any other word no.
    pub vendor_verdict: u32,
    /// 1 is yes, any other word no.
    pub firmware_verdict: u32,
}

/// What the check of a loader, and the choice of one, is given besides the bytes.
#[repr(C)]
#[derive(Clone, Copy, Debug, Default, PartialEq, Eq)]
pub struct LoaderInputs {
    /// The current time.
    pub time: u32,
    /// How many keys must have signed a loader, no fewer and no more.
    pub m: u32,
    /// How many keys there are for loaders.
    pub n: u32,
    /// 1 is yes, any other word no.
    pub card_verdict: u32,
    /// 1 is yes, any other word no.
    pub internal_verdict: u32,
}

/// What a check of the older model is given besides the bytes.
#[repr(C)]
#[derive(Clone, Copy, Debug, Default, PartialEq, Eq)]
pub struct OlderInputs {
    /// The current time.
    pub time: u32,
    /// How many keys the key sheet has.
    pub keys: u32,
    /// For each signature of the legacy header: 1 is yes, any other word no.
    pub legacy_verdicts: [u32; 3],
    /// Likewise for the V2 header.
    pub v2_verdicts: [u32; 3],
}

/// The answer of a check, of a digest question or of a choice.
#[repr(C)]
#[derive(Clone, Copy, Debug, Default, PartialEq, Eq)]
pub struct Answer {
    /// What the call returns.
    pub number: u32,
    /// The part of the image.
    pub part: u32,
    /// The chunk, counted from 1.
    pub chunk: u32,
}

/// What an acceptance tells.
#[repr(C)]
#[derive(Clone, Copy, Debug, Default, PartialEq, Eq)]
pub struct Image {
    /// The length v of the vendor header. It is 0 for a loader and for the older model.
    pub vendor_length: u32,
    /// The length of the code.
    pub code_length: u32,
    /// The version of the firmware or the loader, the major part in the low 8 bits.
    pub version: u32,
    /// The fix version, likewise.
    pub fix_version: u32,
}

/// A place in the bytes that were passed.
#[repr(C)]
#[derive(Clone, Copy, Debug, Default, PartialEq, Eq)]
pub struct Span {
    /// Where it starts.
    pub start: u64,
    /// How many bytes it has.
    pub length: u64,
}

/// The places of an image's parts.
#[repr(C)]
#[derive(Clone, Copy, Debug, Default, PartialEq, Eq)]
pub struct Parts {
    /// The vendor's string.
    pub string: Span,
    /// The picture area, up to the sigmask.
    pub picture: Span,
    /// The code.
    pub code: Span,
}

/// The loader to run.
#[repr(C)]
#[derive(Clone, Copy, Debug, Default, PartialEq, Eq)]
pub struct Loader {
    /// 0 is none, 1 the card, 2 the internal area.
    pub area: u64,
    /// Its header and its code in that area.
    pub place: Span,
}

/// What the chip needs to verify a header's signature, beside the digest.
#[repr(C)]
#[derive(Clone, Copy, Debug, Default, PartialEq, Eq)]
pub struct Signature {
    /// 1 byte.
    pub sigmask: Span,
    /// 64 bytes.
    pub sig: Span,
    /// The keys, 32 bytes each, or empty.
    pub keys: Span,
    /// How many of these keys must sign, no fewer and no more.
    pub m: u64,
    /// How many of them there are.
    pub n: u64,
}

/// How far the vendor is trusted.
#[repr(C)]
#[derive(Clone, Copy, Debug, Default, PartialEq, Eq)]
pub struct Trust {
    /// How many seconds to wait.
    pub seconds: u32,
    /// 1 if it is active, and 0 if not.
    pub red_background: u32,
    /// Likewise.
    pub click_needed: u32,
    /// Likewise.
    pub string_shown: u32,
    /// Likewise.
    pub secret_allowed: u32,
}

/// The numbers of a vendor header.
#[repr(C)]
#[derive(Clone, Copy, Debug, Default, PartialEq, Eq)]
pub struct VendorNumbers {
    /// The last time at which the header is valid, or 0 for no expiry.
    pub expiry: u32,
    /// The major version, at most 255.
    pub major: u32,
    /// The minor version, at most 255.
    pub minor: u32,
    /// How many keys must sign firmware, no fewer and no more.
    pub m: u32,
    /// How many keys there are.
    pub n: u32,
    /// At most 65,535.
    pub vtrust: u32,
    /// Which keys signed this header. At most 255.
    pub sigmask: u32,
}

/// The numbers of a firmware header.
#[repr(C)]
#[derive(Clone, Copy, Debug, Default, PartialEq, Eq)]
pub struct FirmwareNumbers {
    /// The length v of the vendor header that precedes this one.
    pub vendor_length: u32,
    /// The last time at which the header is valid, or 0 for no expiry.
    pub expiry: u32,
    /// The version, the major part in the low 8 bits.
    pub version: u32,
    /// The fix version, likewise.
    pub fix_version: u32,
    /// Which of the vendor's keys signed this header. At most 255.
    pub sigmask: u32,
}

/// The record of an install.
#[repr(C)]
#[derive(Clone, Copy, Debug, Default, PartialEq, Eq)]
pub struct Record {
    /// 1 if the session is open, 2 if its file is accepted and not confirmed yet, 0 if it is over.
    pub phase: u32,
    /// The slot's length, as told to begin.
    pub slot_length: u32,
    /// The file's length, as told to begin.
    pub file_length: u32,
    /// Pages erased.
    pub pages_erased: u32,
    /// Bytes taken.
    pub bytes_taken: u32,
    /// Operations of the flash since begin.
    pub operations: u32,
    /// The first word of the file once it is complete, its first byte in the low 8 bits.
    pub first_word: u32,
    /// The bytes taken of the word in progress, likewise.
    pub current_word: u32,
    /// No call reads them.
    pub reserved: [u32; 8],
}

/// The operation of the flash that a call hands back.
#[repr(C)]
#[derive(Clone, Copy, Debug, Default, PartialEq, Eq)]
pub struct Operation {
    /// 0 is nothing, 1 erases a page, 2 stores a word.
    pub kind: u32,
    /// Where the page or the word starts, in bytes from the slot's start.
    pub offset: u32,
    /// The word to be stored, its first byte in the low 8 bits.
    pub word: u32,
}

/// Two answers, one for each header.
#[repr(C)]
#[derive(Clone, Copy, Debug, Default, PartialEq, Eq)]
pub struct Answers {
    /// For the vendor header.
    pub vendor: Answer,
    /// For the firmware header.
    pub firmware: Answer,
}

/// Two digests, one for each header.
#[repr(C)]
#[derive(Clone, Copy, Debug, Default, PartialEq, Eq)]
pub struct Digests {
    /// For the vendor header.
    pub vendor: [u8; 32],
    /// For the firmware header.
    pub firmware: [u8; 32],
}

/// What the chip needs for each header.
#[repr(C)]
#[derive(Clone, Copy, Debug, Default, PartialEq, Eq)]
pub struct Signatures {
    /// For the vendor header.
    pub vendor: Signature,
    /// For the firmware header.
    pub firmware: Signature,
}
