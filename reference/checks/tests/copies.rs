//! The committed copies are what `make_copies` makes, and differ from the published text as they say.

use std::fs;
use std::path::{Path, PathBuf};
use std::process::Command;

fn reference() -> PathBuf {
    Path::new(env!("CARGO_MANIFEST_DIR")).join("..")
}

/// Every file below a directory, by its path from there.
fn files(root: &Path) -> Vec<(PathBuf, String)> {
    let (mut found, mut open) = (Vec::new(), vec![root.to_path_buf()]);
    while let Some(directory) = open.pop() {
        for entry in fs::read_dir(directory).unwrap() {
            let path = entry.unwrap().path();
            if path.is_dir() {
                open.push(path);
            } else {
                let text = fs::read_to_string(&path).unwrap();
                found.push((path.strip_prefix(root).unwrap().to_path_buf(), text));
            }
        }
    }
    found.sort();
    found
}

#[test]
fn the_script_makes_the_committed_copies() {
    let made = Path::new(env!("CARGO_TARGET_TMPDIR")).join("copies");
    let _ = fs::remove_dir_all(&made);
    let status = Command::new("sh").arg(reference().join("make_copies")).arg(&made).status().unwrap();
    assert!(status.success());
    let (committed, made) = (files(&reference().join("copies")), files(&made));
    assert_eq!(committed.len(), made.len());
    for (committed, made) in committed.iter().zip(&made) {
        assert_eq!(committed.0, made.0);
        assert!(committed.1 == made.1, "{} is not what make_copies makes", made.0.display());
    }
}

/// Published lines, in order, once the marks are gone and the exact hypot is read as the library's.
#[test]
fn the_substitutions_are_all_there_is() {
    let published = fs::read_to_string(reference().join("published/revolve.rs")).unwrap();
    let added = ["use exact_hypot::ExactHypot;", "pub mod probe;", "pub mod trace;"];
    for (copy, extra) in [("libm", 0), ("exact", 0), ("traced", 4)] {
        let text = fs::read_to_string(reference().join("copies").join(copy).join("src/revolve.rs")).unwrap();
        assert!(text.starts_with("// CHANGED by make_copies"));
        let notes = |line: &&str| line.contains("waiting = ") || line.trim_start().starts_with("trace::");
        assert_eq!(text.lines().filter(notes).count(), extra);
        let kept = text.lines().skip(3).filter(|line| !added.contains(line) && !notes(line));
        let kept: Vec<String> = kept.map(|line| line.replace(".exact_hypot(", ".hypot(")).collect();
        let published: Vec<&str> = published.lines().collect();
        assert_eq!(kept[..published.len()], published[..], "{copy}");
        assert!(kept[published.len()..].iter().all(|line| line.is_empty()));
        assert_eq!(text.contains(".hypot("), copy == "libm");
    }
}
