//! The declarations of `ffi` against those of include/thimmorel.h: the same structs with the same
//! fields in the same order, and the same calls with the same arguments. Both are read as text, and
//! those of the header are told in Rust.

use std::collections::BTreeMap;

const HEADER: &str = include_str!("../../include/thimmorel.h");
const STRUCTS: &str = include_str!("../src/ffi/structs.rs");
const CALLS: &str = include_str!("../src/ffi.rs");

/// Of each struct or call: its fields or arguments, and what it returns.
type Declarations = BTreeMap<String, (Vec<String>, String)>;

/// The text without comments and attributes, its white space as single blanks.
fn bare(text: &str) -> String {
    let mut rest = text;
    let mut kept = String::new();
    while let Some((before, comment)) = rest.split_once("/*") {
        kept += before;
        rest = comment.split_once("*/").expect("a comment ends").1;
    }
    kept += rest;
    let lines = kept.lines().map(str::trim);
    let lines = lines.filter(|line| !line.starts_with("//") && !line.starts_with('#'));
    let words: Vec<&str> = lines.flat_map(str::split_whitespace).collect();
    words.join(" ")
}

/// What follows each `start` in the text, up to the next `end`.
fn each<'a>(text: &'a str, start: &str, end: &str) -> Vec<&'a str> {
    let pieces = text.split(start).skip(1);
    let ended = pieces.filter_map(|piece| piece.split_once(end));
    ended.map(|(inside, _)| inside).collect()
}

fn pieces(text: &str, separator: char) -> Vec<String> {
    let pieces = text.split(separator).map(str::trim);
    let pieces = pieces.filter(|piece| !piece.is_empty());
    pieces.map(str::to_string).collect()
}

/// `thimmorel_vendor_numbers` as `VendorNumbers`.
fn camel(name: &str) -> String {
    let name = name.strip_prefix("thimmorel_").expect("the prefix");
    let words = name.split('_');
    words
        .map(|word| word[..1].to_uppercase() + &word[1..])
        .collect()
}

/// A type of C without pointers.
fn plain(words: &str) -> String {
    match words {
        "uint8_t" => "u8".to_string(),
        "uint32_t" => "u32".to_string(),
        "uint64_t" => "u64".to_string(),
        words => camel(words.strip_prefix("struct ").expect("a struct")),
    }
}

/// A field or an argument of C. An array as an argument is a pointer to it.
fn in_rust(declaration: &str, is_argument: bool) -> String {
    let (words, name) = declaration.rsplit_once(' ').expect("a type and a name");
    let constant = words.strip_prefix("const ");
    let pointer = if constant.is_some() { "*const" } else { "*mut" };
    let base = plain(constant.unwrap_or(words));
    if let Some(name) = name.strip_prefix('*') {
        return format!("{name}: {pointer} {base}");
    }
    let Some((name, size)) = name.split_once('[') else {
        return format!("{name}: {base}");
    };
    let array = format!("[{base}; {}]", size.trim_end_matches(']'));
    match is_argument {
        true => format!("{name}: {pointer} {array}"),
        false => format!("{name}: {array}"),
    }
}

/// Each declaration ends at the first brace that closes after its name.
fn structs_of_header() -> Declarations {
    let mut declarations = Declarations::new();
    for piece in bare(HEADER).split("};") {
        let Some((before, fields)) = piece.rsplit_once(" {") else {
            continue;
        };
        let Some((before, name)) = before.rsplit_once(' ') else {
            continue;
        };
        if before.ends_with("struct") {
            let fields = pieces(fields, ';');
            let fields = fields.iter().map(|field| in_rust(field, false)).collect();
            declarations.insert(camel(name), (fields, String::new()));
        }
    }
    declarations
}

fn structs_of_ffi() -> Declarations {
    let text = bare(STRUCTS);
    let declarations = each(&text, "pub struct ", "}").into_iter().map(|piece| {
        let (name, fields) = piece.split_once(" {").expect("fields");
        let fields = fields.replace("pub ", "");
        (name.to_string(), (pieces(&fields, ','), String::new()))
    });
    declarations.collect()
}

fn calls_of_header() -> Declarations {
    let text = bare(HEADER);
    let mut declarations = Declarations::new();
    for (word, returned) in [("void", ""), ("uint32_t", "u32")] {
        for piece in each(&text, &format!("{word} thimmorel_"), ");") {
            let (name, arguments) = piece.split_once('(').expect("arguments");
            let arguments = pieces(arguments, ',');
            let arguments = arguments.iter().map(|argument| in_rust(argument, true));
            let declaration = (arguments.collect(), returned.to_string());
            declarations.insert(format!("thimmorel_{name}"), declaration);
        }
    }
    declarations
}

fn calls_of_ffi() -> Declarations {
    let text = bare(CALLS);
    let declarations = text.split("pub fn ").skip(1).map(|piece| {
        let (name, rest) = piece.split_once('(').expect("arguments");
        let (arguments, rest) = rest.rsplit_once(')').expect("arguments");
        let returned = rest.split(';').next().expect("an end");
        let returned = returned.trim_start_matches(" -> ").to_string();
        (name.to_string(), (pieces(arguments, ','), returned))
    });
    declarations.collect()
}

#[test]
fn the_structs_of_both_are_the_same() {
    assert_eq!(structs_of_header().len(), 17);
    assert_eq!(structs_of_ffi(), structs_of_header());
}

#[test]
fn the_calls_of_both_are_the_same() {
    assert_eq!(calls_of_header().len(), 35);
    assert_eq!(calls_of_ffi(), calls_of_header());
}
