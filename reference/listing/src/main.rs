//! A store on standard input, its listing on standard output.

use std::io::{Read, Write};

const USAGE: &str = "usage: listing_ref < STORE
Reads a store from standard input and writes its listing, as document 01 has it, over the published Rust.";

fn main() {
    if let Some(word) = arguments::words(USAGE).first() {
        arguments::refuse(&format!("{word} is unknown"), USAGE);
    }
    let mut store = Vec::new();
    std::io::stdin().read_to_end(&mut store).expect("standard input can be read");
    std::io::stdout().write_all(listing_ref::listing(&store).as_bytes()).expect("standard output can be written");
}
