//! Every program answers `--help` and refuses an argument that it does not know.

use std::process::Command;

fn code(program: &[&str], word: &str) -> Option<i32> {
    let folder = concat!(env!("CARGO_MANIFEST_DIR"), "/..");
    let output = Command::new(program[0]).args(&program[1..]).arg(word).current_dir(folder).output().unwrap();
    assert_eq!(output.stdout.starts_with(b"usage: "), word == "--help", "{program:?}");
    output.status.code()
}

#[test]
fn help_and_unknown_words() {
    let programs: [&[&str]; 8] = [
        &[env!("CARGO_BIN_EXE_compare")],
        &[env!("CARGO_BIN_EXE_roots")],
        &[env!("CARGO_BIN_EXE_bench")],
        &[env!("CARGO_BIN_EXE_advice")],
        &[env!("CARGO_BIN_EXE_truth")],
        &["sh", "make_copies"],
        &["python3", "hard_roots.py"],
        &["python3", "listing/make_stores.py"],
    ];
    for program in programs {
        assert_eq!(code(program, "--help"), Some(0), "{program:?}");
        assert_eq!(code(program, "--unknown"), Some(2), "{program:?}");
    }
}
