//! What the tests share: bytes to try, the digests of Python and of documents, and C programs
//! over the archive.

// Each test takes what it needs.
#![allow(dead_code)]

pub mod c;
pub mod hashlib;
pub mod hex;
pub mod random;
