//! Seed and vertex count on standard input, the load on standard output.

use std::io::{Read, Write};

const USAGE: &str = "usage: load_ref < INPUT
Reads a seed and a vertex count from standard input, two little-endian u64, and writes the test load as request (xii) has it.";

fn main() {
    if let Some(word) = arguments::words(USAGE).first() {
        arguments::refuse(&format!("{word} is unknown"), USAGE);
    }
    let mut input = Vec::new();
    std::io::stdin().read_to_end(&mut input).expect("standard input can be read");
    std::io::stdout().write_all(load_ref::printed(&input).as_bytes()).expect("standard output can be written");
}
