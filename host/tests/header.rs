//! The wrapper against include/thimmorel.h: the numbers and the sentences of `Reason` against
//! `enum thimmorel_error`, the sizes, and the version. declarations.rs compares structs and calls.

use std::collections::BTreeMap;
use thimmorel::{ffi, Reason};

const HEADER: &str = include_str!("../../include/thimmorel.h");

/// Of each number: the name, and the sentence.
type Reasons = BTreeMap<u32, (String, String)>;

/// What stands between two texts, and what follows.
fn between<'a>(text: &'a str, start: &str, end: &str) -> Option<(&'a str, &'a str)> {
    text.split_once(start)?.1.split_once(end)
}

/// A comment as `Reason` writes it: on one line, with no capital, full stop or backquotes.
fn as_reason_writes(comment: &str) -> String {
    let words: Vec<&str> = comment.split_whitespace().collect();
    let line = words.join(" ").replace('`', "");
    let sentence = line.strip_suffix('.').expect("a comment has a full stop");
    let (first, rest) = sentence.split_at(1);
    first.to_lowercase() + rest
}

/// `THIMMOREL_ERROR_TOO_SHORT` as `TooShort`.
fn as_variant(name: &str) -> String {
    let name = name.trim().strip_prefix("THIMMOREL_ERROR_");
    let words = name.expect("the prefix of an error").split('_');
    let capital = |word: &str| word[..1].to_string() + &word[1..].to_lowercase();
    words.map(capital).collect()
}

/// Each enumerator is `/** COMMENT */ NAME = NUMBER`, and a comma ends it, or the enum.
fn of_header() -> Reasons {
    let (enumerators, _) = between(HEADER, "enum thimmorel_error {", "};").expect("the enum");
    let (success, mut rest) = enumerators.split_once(",\n").expect("enumerators");
    assert!(success.ends_with("THIMMOREL_OK = 0"), "{success}");
    let mut reasons = Reasons::new();
    while let Some((comment, after)) = between(rest, "/**", "*/") {
        let (enumerator, next) = after.split_once(",\n").unwrap_or((after, ""));
        let (name, number) = enumerator.split_once(" = ").expect("an enumerator");
        let number = number.trim().parse().expect("a number");
        let reason = (as_variant(name), as_reason_writes(comment));
        let before = reasons.insert(number, reason);
        assert_eq!(before, None, "{number} stands twice in the header");
        rest = next;
    }
    reasons
}

fn of_wrapper() -> Reasons {
    let reasons = (1..=255).filter_map(Reason::from_number);
    let known = reasons.filter(|reason| !matches!(reason, Reason::Other(_)));
    let told = known.map(|reason| {
        let name = format!("{reason:?}");
        (reason.number(), (name, reason.to_string()))
    });
    told.collect()
}

#[test]
fn the_reasons_of_both_are_the_same() {
    let of_header = of_header();
    let numbers = of_header.keys().copied();
    assert!(numbers.eq((1..=23).chain([27, 28])), "{of_header:?}");
    assert_eq!(of_wrapper(), of_header);
}

#[test]
fn numbers_that_are_no_reason_or_another() {
    assert_eq!(Reason::from_number(0), None);
    for number in [24, 25, 26, 29, 255, 256, u32::MAX] {
        let reason = Reason::from_number(number);
        assert_eq!(reason, Some(Reason::Other(number)));
        assert_eq!(reason.map(Reason::number), Some(number));
    }
}

/// What a macro of the header stands for.
fn defined(name: &str) -> &str {
    let (value, _) = between(HEADER, &format!("#define {name} "), "\n").expect(name);
    value
}

#[test]
fn the_sizes_of_both_are_the_same() {
    for (name, size) in [
        ("THIMMOREL_RECORD_SIZE", size_of::<ffi::Record>()),
        (
            "THIMMOREL_FIRMWARE_HEADER_SIZE",
            thimmorel::FIRMWARE_HEADER_SIZE,
        ),
        ("THIMMOREL_VENDOR_HEADER_MIN", thimmorel::VENDOR_HEADER_MIN),
        ("THIMMOREL_VENDOR_HEADER_MAX", thimmorel::VENDOR_HEADER_MAX),
        (
            "THIMMOREL_LOADER_HEADER_SIZE",
            thimmorel::LOADER_HEADER_SIZE,
        ),
        ("THIMMOREL_LOADER_CODE_MAX", thimmorel::LOADER_CODE_MAX),
        ("THIMMOREL_LOADER_MAX", thimmorel::LOADER_MAX),
        (
            "THIMMOREL_LEGACY_HEADER_SIZE",
            thimmorel::LEGACY_HEADER_SIZE,
        ),
        ("THIMMOREL_V2_HEADER_SIZE", thimmorel::V2_HEADER_SIZE),
        ("THIMMOREL_V2_CODE_MAX", thimmorel::V2_CODE_MAX),
        (
            "THIMMOREL_OLDER_KEYS_MIN",
            thimmorel::OLDER_KEYS_MIN as usize,
        ),
        (
            "THIMMOREL_OLDER_KEYS_MAX",
            thimmorel::OLDER_KEYS_MAX as usize,
        ),
        ("THIMMOREL_LEGACY_INDEXES", thimmorel::LEGACY_INDEXES),
        ("THIMMOREL_LEGACY_SIGNATURES", thimmorel::LEGACY_SIGNATURES),
        ("THIMMOREL_V2_SIGNATURES", thimmorel::V2_SIGNATURES),
        ("THIMMOREL_V2_INDEXES", thimmorel::V2_INDEXES),
        ("THIMMOREL_PAGE_SIZE", thimmorel::PAGE_SIZE),
        ("THIMMOREL_WORD_SIZE", thimmorel::WORD_SIZE),
        ("THIMMOREL_SLOT_MAX", thimmorel::SLOT_MAX),
        ("THIMMOREL_FILE_MIN", thimmorel::FILE_MIN),
    ] {
        assert_eq!(defined(name), format!("{size}u"), "{name}");
    }
}

#[test]
fn the_versions_of_both_are_the_same() {
    let version = env!("CARGO_PKG_VERSION");
    assert_eq!(defined("THIMMOREL_VERSION"), format!("\"{version}\""));
    let parts = ["MAJOR", "MINOR", "PATCH"].map(|part| format!("THIMMOREL_VERSION_{part}"));
    let parts = parts.each_ref().map(|name| defined(name));
    assert_eq!(parts.join("."), version);
}
