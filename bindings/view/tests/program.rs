//! The program's exit codes, and what it does when it cannot write.

use std::fs::{self, File};
use std::io::Write;
use std::path::{Path, PathBuf};
use std::process::{Command, Output, Stdio};

const GOOD: &str = concat!(env!("CARGO_MANIFEST_DIR"), "/../../examples/bodies.store");

fn view(words: &[&str]) -> Command {
    let mut command = Command::new(env!("CARGO_BIN_EXE_view"));
    command.args(words);
    command
}

fn told(words: &[&str]) -> (Option<i32>, String, String) {
    let Output { status, stdout, stderr } = view(words).output().unwrap();
    (status.code(), String::from_utf8(stdout).unwrap(), String::from_utf8(stderr).unwrap())
}

/// A file of the tests' own, with these bytes.
fn file(name: &str, bytes: &[u8]) -> PathBuf {
    let path = Path::new(env!("CARGO_TARGET_TMPDIR")).join(name);
    fs::write(&path, bytes).unwrap();
    path
}

#[test]
fn accepted_and_refused() {
    let bytes = fs::read(GOOD).unwrap();
    let (code, text, errors) = told(&[GOOD]);
    assert_eq!((code, errors.as_str()), (Some(0), ""));
    assert!(text.contains("accepted, 13 records, 4 vertices, 8 bodies"));
    let short = file("short.store", &bytes[..41]);
    let (code, text, _) = told(&[short.to_str().unwrap()]);
    assert_eq!((code, text.contains("refused 12: store length")), (Some(1), true));
    let (code, text, _) = told(&[short.to_str().unwrap(), "--json"]);
    assert_eq!((code, text.contains("\"accepted\":false")), (Some(1), true));
    // The radius of sphere 5 becomes -4.
    let mut body = bytes.clone();
    body[239] = 0xc0;
    let (code, text, _) = told(&[file("body.store", &body).to_str().unwrap()]);
    assert_eq!((code, text.contains("refused 9: ")), (Some(3), true));
    assert_eq!(told(&[GOOD, "--move", "5:0,0,0:0,0,0:0"]).0, Some(3));
    assert_eq!(told(&[GOOD, "--move", "5:0,0,0:0,0,9:3"]).0, Some(0));
}

#[test]
fn wrong_calls() {
    for words in [
        &[][..],
        &["--svg"],
        &[GOOD, "more"],
        &["--unknown", GOOD],
        &[GOOD, "--move", "5"],
        &[GOOD, "--move", "4:0,0,0:0,0,0:1"],
        &[GOOD, "--clearance", "x"],
        &[GOOD, "--clearance", "0"],
        &[GOOD, "--clearance", "1e-9"],
        &[GOOD, "--clearance", "-1"],
        &[GOOD, "--clearance", "nan"],
        &["no-such-file.store"],
        &["/"],
    ] {
        let (code, text, errors) = told(words);
        assert_eq!((code, text.as_str(), errors.starts_with("view: ")), (Some(2), "", true), "{words:?}");
    }
    let (code, text, _) = told(&["--help"]);
    assert_eq!(
        (code, text.starts_with("usage: view STORE"), text.contains("1 mm unless given")),
        (Some(0), true, true)
    );
    assert_eq!(told(&[file("long.store", &vec![0; (1 << 20) + 1]).to_str().unwrap()]).0, Some(2));
    assert_eq!(told(&[file("many.store", &vec![0; 1 << 20]).to_str().unwrap()]).0, Some(1));
}

#[test]
fn failed_writes() {
    let full = || File::options().write(true).open("/dev/full").unwrap();
    for words in [&[GOOD][..], &[GOOD, "--json"]] {
        let output = view(words).stdout(full()).output().unwrap();
        assert_eq!(output.status.code(), Some(2));
        assert!(String::from_utf8_lossy(&output.stderr).contains("standard output cannot be written"));
    }
    for name in ["/dev/full", "/no/such/folder/x.svg"] {
        let (code, text, errors) = told(&[GOOD, "--svg", name]);
        assert_eq!((code, text.as_str(), errors.contains("cannot be written")), (Some(2), "", true));
    }
    let copy = file("copy.store", &fs::read(GOOD).unwrap());
    assert_eq!(told(&[copy.to_str().unwrap(), "--svg", copy.to_str().unwrap()]).0, Some(2));
    assert_eq!(fs::read(&copy).unwrap(), fs::read(GOOD).unwrap());
}

#[test]
fn pictures_and_standard_input() {
    let path = file("good.svg", b"old");
    assert_eq!(told(&[GOOD, "--svg", path.to_str().unwrap()]).0, Some(0));
    let svg = fs::read_to_string(&path).unwrap();
    assert!(svg.starts_with("<svg ") && svg.ends_with("</svg>\n"));
    // A refused store leaves the picture, and says so.
    let (code, _, errors) = told(&["/dev/null", "--svg", path.to_str().unwrap()]);
    assert_eq!((code, errors.contains("is not written")), (Some(1), true));
    assert_eq!(fs::read_to_string(&path).unwrap(), svg);
    let mut child = view(&["-", "--json"]).stdin(Stdio::piped()).stdout(Stdio::piped()).spawn().unwrap();
    child.stdin.take().unwrap().write_all(&fs::read(GOOD).unwrap()).unwrap();
    let output = child.wait_with_output().unwrap();
    assert_eq!(output.status.code(), Some(0));
    assert!(output.stdout.starts_with(b"{\"store\":\"-\","));
}

/// Box 6 stands 5 mm away: table, JSON and picture call it clear at 5 mm and not at 5.1; the default is 1.
#[test]
fn one_clearance_for_all() {
    let path = Path::new(env!("CARGO_TARGET_TMPDIR")).join("clearance.svg");
    let drawn = |words: &[&str]| {
        let words = [&[GOOD, "--svg", path.to_str().unwrap()], words].concat();
        (told(&words).1, fs::read_to_string(&path).unwrap())
    };
    let six =
        |json: &str| json.split("\"record\":6,").nth(1).unwrap().split("\"distance\"").next().unwrap().to_string();
    for (words, clear, number) in
        [(&[][..], true, "1"), (&["--clearance", "5"], true, "5"), (&["--clearance", "5.1"], false, "5.1")]
    {
        let (table, svg) = drawn(words);
        let line = table.lines().find(|line| line.starts_with("     6  box")).unwrap();
        let said = if clear { format!("clear of {number} mm") } else { format!("under {number} mm") };
        assert!(line.contains(&said), "{line}");
        assert!(svg.contains(&format!("clear: {number} mm away or more")) && svg.contains("1 mm unless given"));
        let json = told(&[&[GOOD, "--json"], words].concat()).1;
        assert!(six(&json).contains(if clear {
            "\"clear\",\"collision\":false"
        } else {
            "\"too-near\",\"collision\":true"
        }));
        assert!(
            !json.contains("-1e-8") && !json.contains("-1e-08") && !table.contains("-1e-8") && !svg.contains("-1e-8")
        );
    }
}
