//! Independent models of what the archive computes, written for reading and not for speed. None
//! shares code with the library. BLAKE2s is written from RFC 7693, SHA-256 from FIPS 180-4, the rest
//! from `docs/SPECIFICATION.md`, whose sections and steps (S1 to S23) are cited.
//!
//! These points are decisions of the project (`docs/DECISIONS.md`), whether the specification states
//! them by now or not. The model shares them with the library, so no test here would show a wrong
//! one:
//!
//! - An acceptance tells the firmware header's version and fix version. It does not tell the vendor
//!   header's.
//! - The picture area is opaque up to the sigmask: S8 tests no byte of it.
//! - The check of a slot does not test the slot's length.
//! - The trust reading takes a byte past the end as 0.
//! - The phase of a session follows from its numbers, and a record that no session reaches is
//!   inconsistent. So erase answers 19 once all pages are erased, and every call does with bytes
//!   taken while pages are still to be erased.
//! - The first erase of a session is told by the count alone: it stores zero where no operation was
//!   made since begin, also if the first word is zero or erased already.
//! - A phase of a record other than 1 answers 19 in every call, but for confirm, where it is any
//!   other than 2.
//! - 23 is answered only where a word would be stored. A fill that completes no word, or the first,
//!   does not look at the slot. At 23 no byte of the piece is taken. Close tests the first word
//!   before it runs the check. Ask never answers 23.
//! - Ask answers 19 once, for both digests.
//! - Storing a word of four bytes of 255 is an operation, and is counted.
//! - Done tells nothing else. A confirm that answers 27 leaves the record as it was.
//! - A verdict is yes if its word is 1, and no otherwise.
//! - A loader's v is told as 0. The check of an area does not test its length, and the bytes after
//!   the code may be none. The choice never tells the refusal of a card.
//! - The older model's key sheet is judged before the bytes, and by no digest question. A V2 header
//!   in the pair that is short of its magic is 10, as any other without it. The digest that a legacy
//!   header's signatures sign is over the codelen bytes as they are, whatever they are.
//! - A number that does not fit its field is 28, before every other refusal of a writer. The key
//!   numbers m and n are 4 instead.
//!
//! Some more such points are not modelled, and are tested in `differential`: an answer and an
//! operation are always written, the part and the chunk are 0 on success, and an operation is three
//! zeros where there is none (archive); the reserved words of a record are not read, are 0 after
//! begin, and stay as they are in every other call (both.rs).

// Each test takes the models that it needs.
#![allow(dead_code)]

pub mod blake2s;
pub mod image;
pub mod installer;
pub mod layout;
pub mod loader;
pub mod older;
pub mod program;
pub mod sha256;
pub mod writer;
