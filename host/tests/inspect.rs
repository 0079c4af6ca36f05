//! The inspecting program, as a user runs it: bytes on standard input, one line on standard output.
//! `rt run` in crates/inspect builds it, and so does the gate's `rt ci`.

use std::io::Write;
use std::process::{Command, Stdio};
use std::thread::sleep;
use std::time::Duration;

const PROGRAM: &str = concat!(env!("CARGO_MANIFEST_DIR"), "/../crates/inspect/out/inspect");
const IMAGE: &[u8] = include_bytes!("../../crates/inspect/stdin");
const LIMIT: usize = 65_536;

/// What the program writes where its input comes in these pieces, with a pause between two.
fn inspect(pieces: &[&[u8]]) -> String {
    let mut program = Command::new(PROGRAM)
        .stdin(Stdio::piped())
        .stdout(Stdio::piped())
        .spawn()
        .expect("`rt run` in crates/inspect builds the program");
    let mut input = program.stdin.take().expect("it is piped");
    for (i, piece) in pieces.iter().enumerate() {
        if i > 0 {
            sleep(Duration::from_millis(20));
        }
        // The program may have ended by then: it stops at the first byte too many.
        let _ = input.write_all(piece).and_then(|()| input.flush());
    }
    drop(input);
    let output = program.wait_with_output().expect("the program ends");
    assert!(output.status.success());
    String::from_utf8(output.stdout).expect("the line is text")
}

#[test]
fn an_image_is_accepted() {
    assert_eq!(inspect(&[IMAGE]), "accepted\n");
}

#[test]
fn empty_input_is_refused() {
    assert_eq!(inspect(&[]), "refused 1 part 1 chunk 0\n");
}

#[test]
fn a_wrong_code_byte_is_refused_with_its_chunk() {
    let mut image = IMAGE.to_vec();
    *image.last_mut().expect("there is code") ^= 1;
    assert_eq!(inspect(&[&image]), "refused 14 part 3 chunk 1\n");
}

/// A pipe gives what is there, so the program has to read on.
#[test]
fn short_reads_are_read_on() {
    let pieces: Vec<&[u8]> = IMAGE.chunks(300).collect();
    assert_eq!(inspect(&pieces), "accepted\n");
}

#[test]
fn the_limit_is_checked_and_a_byte_more_is_too_large() {
    let mut bytes = IMAGE.to_vec();
    bytes.resize(LIMIT, 255);
    assert_eq!(inspect(&[&bytes]), "refused 13 part 3 chunk 0\n");
    bytes.push(255);
    assert_eq!(inspect(&[&bytes]), "too large\n");
    assert_eq!(inspect(&[&bytes[..LIMIT], &bytes[LIMIT..]]), "too large\n");
}
