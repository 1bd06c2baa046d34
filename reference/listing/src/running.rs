//! Running a verified program.

use std::io::{Read, Write};
use std::process::{Command, Stdio};

/// The program's output on this input, handed over in pieces of this size.
pub fn run(program: &str, input: &[u8], piece: usize, usage: &str) -> Vec<u8> {
    let child = Command::new(program).stdin(Stdio::piped()).stdout(Stdio::piped()).spawn();
    let mut child = child.unwrap_or_else(|error| arguments::refuse(&format!("{program}: {error}"), usage));
    let mut stdin = child.stdin.take().unwrap();
    for part in input.chunks(piece) {
        stdin.write_all(part).unwrap();
        stdin.flush().unwrap();
    }
    drop(stdin);
    let mut text = Vec::new();
    child.stdout.take().unwrap().read_to_end(&mut text).unwrap();
    child.wait().unwrap();
    text
}
