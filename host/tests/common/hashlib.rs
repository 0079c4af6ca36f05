//! Digests by Python's hashlib. One process of `python3` serves many messages: digests.py, beside
//! this file, says how they are sent.

use std::io::{self, BufWriter, Write};
use std::process::{ChildStdin, Command, Stdio};

const PROGRAM: &str = concat!(env!("CARGO_MANIFEST_DIR"), "/tests/common/digests.py");

fn send(messages: &[&[u8]], input: ChildStdin) -> io::Result<()> {
    let mut input = BufWriter::new(input);
    for message in messages {
        input.write_all(&(message.len() as u64).to_le_bytes())?;
        input.write_all(message)?;
    }
    input.flush()
}

/// The digest of each message, in order, by the hash function that has this name in hashlib. The
/// program writes only after its input has ended, so the two processes never wait for each other.
pub fn digests(hash: &str, messages: &[&[u8]]) -> Vec<[u8; 32]> {
    let mut python = Command::new("python3")
        .args([PROGRAM, hash])
        .stdin(Stdio::piped())
        .stdout(Stdio::piped())
        .spawn()
        .expect("python3 is needed");
    let input = python.stdin.take().expect("it is piped");
    send(messages, input).expect("python3 reads its input");
    let output = python.wait_with_output().expect("python3 ends");
    assert!(output.status.success(), "python3 failed");

    assert_eq!(output.stdout.len(), 32 * messages.len());
    let digests = output.stdout.chunks(32);
    digests.map(|d| d.try_into().expect("32 bytes")).collect()
}
