//! Both programs answer `--help` and refuse an argument that they do not know.

use std::process::{Command, Stdio};

#[test]
fn help_and_unknown_words() {
    for program in [env!("CARGO_BIN_EXE_load_ref"), env!("CARGO_BIN_EXE_compare_loads")] {
        let code = |word: &str| Command::new(program).arg(word).stdin(Stdio::null()).status().unwrap().code();
        assert_eq!((code("--help"), code("--unknown")), (Some(0), Some(2)), "{program}");
    }
}
