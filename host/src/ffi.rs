//! The structs and the exported calls of the archive, as `include/thimmorel.h` declares and
//! documents them. The archive is proved, and these declarations are not: tests/declarations.rs
//! compares them with the header, and the tests run through them. Use the safe calls of the crate
//! unless you need the words themselves.

mod structs;

pub use structs::*;

extern "C" {
    /// Computes a BLAKE2s digest.
    pub fn thimmorel_digest(bytes: *const u8, length: u64, digest: *mut [u8; 32]);

    /// Computes a SHA-256 digest.
    pub fn thimmorel_sha256(bytes: *const u8, length: u64, digest: *mut [u8; 32]);

    /// Checks an image that is a file.
    pub fn thimmorel_check_file(
        bytes: *const u8,
        length: u64,
        inputs: *const Inputs,
        answer: *mut Answer,
        image: *mut Image,
    ) -> u32;

    /// Checks an image that is in a slot.
    pub fn thimmorel_check_slot(
        bytes: *const u8,
        length: u64,
        inputs: *const Inputs,
        answer: *mut Answer,
        image: *mut Image,
    ) -> u32;

    /// Tells where the parts of a checked image are.
    pub fn thimmorel_find_parts(bytes: *const u8, length: u64, number: u32, parts: *mut Parts);

    /// Computes the digest that the vendor header's signature signs.
    pub fn thimmorel_vendor_digest(
        bytes: *const u8,
        length: u64,
        answer: *mut Answer,
        digest: *mut [u8; 32],
    ) -> u32;

    /// Computes the digest that the firmware header's signature signs.
    pub fn thimmorel_firmware_digest(
        bytes: *const u8,
        length: u64,
        answer: *mut Answer,
        digest: *mut [u8; 32],
    ) -> u32;

    /// Tells where the vendor header's sigmask and signature are.
    pub fn thimmorel_find_vendor_signature(
        bytes: *const u8,
        length: u64,
        signature: *mut Signature,
    );

    /// Tells where the firmware header's sigmask and signature are, and the keys that sign it.
    pub fn thimmorel_find_firmware_signature(
        bytes: *const u8,
        length: u64,
        signature: *mut Signature,
    );

    /// Reads how far the vendor is trusted.
    pub fn thimmorel_read_trust(bytes: *const u8, length: u64, trust: *mut Trust);

    /// Writes a vendor header.
    pub fn thimmorel_write_vendor(
        numbers: *const VendorNumbers,
        keys: *const u8,
        keys_length: u64,
        string: *const u8,
        string_length: u64,
        picture: *const u8,
        picture_length: u64,
        sig: *const [u8; 64],
        out: *mut u8,
        out_length: u64,
        written: *mut u32,
    ) -> u32;

    /// Writes a firmware header for code that will follow it.
    pub fn thimmorel_write_firmware(
        numbers: *const FirmwareNumbers,
        code: *const u8,
        code_length: u64,
        sig: *const [u8; 64],
        out: *mut u8,
        out_length: u64,
        written: *mut u32,
    ) -> u32;

    /// Begins to install a file of a given length.
    pub fn thimmorel_begin(
        slot: *const u8,
        slot_length: u64,
        file_length: u64,
        record: *mut Record,
    ) -> u32;

    /// Stores zero in the first word of a slot in memory, and then erases the next page.
    pub fn thimmorel_erase(record: *mut Record, slot: *mut u8, slot_length: u64) -> u32;

    /// Gives the next bytes of the file to a slot in memory.
    pub fn thimmorel_fill(
        record: *mut Record,
        piece: *const u8,
        piece_length: u64,
        slot: *mut u8,
        slot_length: u64,
        taken: *mut u32,
    ) -> u32;

    /// Computes the two digests that the signatures of the new file sign.
    pub fn thimmorel_ask(
        record: *const Record,
        slot: *const u8,
        slot_length: u64,
        answers: *mut Answers,
        digests: *mut Digests,
    ) -> u32;

    /// Tells where the signatures of the new file are in the slot, and the keys.
    pub fn thimmorel_find_signatures(
        record: *const Record,
        slot: *const u8,
        slot_length: u64,
        signatures: *mut Signatures,
    );

    /// Checks the new file and, if it is accepted, finishes the install in a slot in memory.
    pub fn thimmorel_close(
        record: *mut Record,
        slot: *mut u8,
        slot_length: u64,
        inputs: *const Inputs,
        answer: *mut Answer,
    ) -> u32;

    /// Plans the store of zero in the first word, and then the erase of the next page.
    pub fn thimmorel_plan_erase(
        record: *mut Record,
        slot: *const u8,
        slot_length: u64,
        operation: *mut Operation,
    ) -> u32;

    /// Takes the next bytes of the file, and plans the store of a word that they complete.
    pub fn thimmorel_plan_fill(
        record: *mut Record,
        piece: *const u8,
        piece_length: u64,
        slot: *const u8,
        slot_length: u64,
        taken: *mut u32,
        operation: *mut Operation,
    ) -> u32;

    /// Checks the new file and, if it is accepted, plans the store of its first word.
    pub fn thimmorel_plan_close(
        record: *mut Record,
        slot: *const u8,
        slot_length: u64,
        inputs: *const Inputs,
        answer: *mut Answer,
        operation: *mut Operation,
    ) -> u32;

    /// Finishes an install whose file is accepted, once its first word stands in the slot.
    pub fn thimmorel_confirm(record: *mut Record, slot: *const u8, slot_length: u64) -> u32;

    /// Checks the loader on a memory card.
    pub fn thimmorel_check_card(
        bytes: *const u8,
        length: u64,
        inputs: *const LoaderInputs,
        answer: *mut Answer,
        image: *mut Image,
    ) -> u32;

    /// Checks the loader in the internal area.
    pub fn thimmorel_check_internal(
        bytes: *const u8,
        length: u64,
        inputs: *const LoaderInputs,
        answer: *mut Answer,
        image: *mut Image,
    ) -> u32;

    /// Computes the digest that a loader's signature signs.
    pub fn thimmorel_loader_digest(
        bytes: *const u8,
        length: u64,
        answer: *mut Answer,
        digest: *mut [u8; 32],
    ) -> u32;

    /// Chooses the loader to run.
    pub fn thimmorel_choose_loader(
        card: *const u8,
        card_length: u64,
        internal: *const u8,
        internal_length: u64,
        inputs: *const LoaderInputs,
        answer: *mut Answer,
        loader: *mut Loader,
    ) -> u32;

    /// Checks a V2 header and its code that are a file.
    pub fn thimmorel_check_v2_file(
        bytes: *const u8,
        length: u64,
        inputs: *const OlderInputs,
        answer: *mut Answer,
        image: *mut Image,
    ) -> u32;

    /// Checks a V2 header and its code that are in a slot.
    pub fn thimmorel_check_v2_slot(
        bytes: *const u8,
        length: u64,
        inputs: *const OlderInputs,
        answer: *mut Answer,
        image: *mut Image,
    ) -> u32;

    /// Checks both headers of the older model and the code that are a file.
    pub fn thimmorel_check_pair_file(
        bytes: *const u8,
        length: u64,
        inputs: *const OlderInputs,
        answer: *mut Answer,
        image: *mut Image,
    ) -> u32;

    /// Checks both headers of the older model and the code that are in a slot.
    pub fn thimmorel_check_pair_slot(
        bytes: *const u8,
        length: u64,
        inputs: *const OlderInputs,
        answer: *mut Answer,
        image: *mut Image,
    ) -> u32;

    /// Tells where the code behind a checked V2 header is.
    pub fn thimmorel_find_v2_code(bytes: *const u8, length: u64, number: u32, code: *mut Span);

    /// Tells where the code behind a checked pair of headers is.
    pub fn thimmorel_find_pair_code(bytes: *const u8, length: u64, number: u32, code: *mut Span);

    /// Computes the digest that the signatures of a V2 header sign.
    pub fn thimmorel_v2_digest(
        bytes: *const u8,
        length: u64,
        answer: *mut Answer,
        digest: *mut [u8; 32],
    ) -> u32;

    /// Computes the digest that the signatures of the V2 header in a pair sign.
    pub fn thimmorel_pair_v2_digest(
        bytes: *const u8,
        length: u64,
        answer: *mut Answer,
        digest: *mut [u8; 32],
    ) -> u32;

    /// Computes the digest that the signatures of the legacy header in a pair sign.
    pub fn thimmorel_pair_legacy_digest(
        bytes: *const u8,
        length: u64,
        answer: *mut Answer,
        digest: *mut [u8; 32],
    ) -> u32;
}
