//! Shows a store.

use std::ffi::OsString;
use std::fs::File;
use std::io::{Read, Write};
use std::path::{Path, PathBuf};
use std::process::ExitCode;
use view::{View, json, moving, picture, table, verdict};

const USAGE: &str = "usage: view STORE [--json] [--svg FILE] [--clearance MM] [--move RECORD:X,Y,Z:X,Y,Z:STEPS]
Shows the store in the file STORE, or on standard input for -, as a table, or with --json as JSON. --svg draws it into FILE.
A body is called clear only at --clearance or farther away: 1 mm unless given, in table, picture, JSON and move; over 1e-9.
--move tries a move of the body in RECORD between two offsets, and draws it.
Exit code 0: all is accepted, clear or not. 1: the store is refused. 3: a body of it or the move is refused.
2: the call is wrong, or something cannot be read or written.";

/// Some fifty times the largest store.
const MOST: u64 = 1 << 20;

#[derive(Default)]
struct Options {
    store: Option<OsString>,
    json: bool,
    svg: Option<OsString>,
    travel: Option<String>,
    clearance: Option<f64>,
}

fn options(words: Vec<OsString>) -> Result<Options, String> {
    let (mut options, mut words) = (Options::default(), words.into_iter());
    while let Some(word) = words.next() {
        let said = word.to_string_lossy().into_owned();
        let mut value = || words.next().ok_or(format!("{said} needs a value"));
        match said.as_str() {
            "--json" => options.json = true,
            "--svg" => options.svg = Some(value()?),
            "--move" => options.travel = Some(value()?.to_string_lossy().into_owned()),
            "--clearance" => {
                let text = value()?.to_string_lossy().into_owned();
                options.clearance = Some(text.parse().map_err(|_| format!("{text} is no number"))?);
            }
            _ if said.starts_with("--") || options.store.is_some() => return Err(format!("{said} is unknown")),
            _ => options.store = Some(word),
        }
    }
    Ok(options)
}

/// The bytes of a file, or of standard input for -.
fn read(name: &Path) -> Result<Vec<u8>, String> {
    let mut bytes = Vec::new();
    let done = match name.to_str() {
        Some("-") => std::io::stdin().lock().take(MOST + 1).read_to_end(&mut bytes),
        _ => File::open(name).and_then(|file| file.take(MOST + 1).read_to_end(&mut bytes)),
    };
    match done {
        Err(error) => Err(format!("{} cannot be read: {error}", name.display())),
        Ok(count) if count as u64 > MOST => Err(format!("{} has over {MOST} bytes, and is no store", name.display())),
        Ok(_) => Ok(bytes),
    }
}

/// The picture goes to a new file or over an old picture, never over the store.
fn write_picture(store: &Path, name: &Path, svg: &str) -> Result<(), String> {
    if let (Ok(a), Ok(b)) = (std::fs::canonicalize(store), std::fs::canonicalize(name))
        && a == b
    {
        return Err(format!("{} is the store, and a picture would overwrite it", name.display()));
    }
    std::fs::write(name, svg).map_err(|error| format!("{} cannot be written: {error}", name.display()))
}

fn run(options: Options) -> Result<ExitCode, String> {
    let store = PathBuf::from(options.store.ok_or("no store is named")?);
    let clearance = options.clearance.unwrap_or(verdict::CLEARANCE);
    let asked = match &options.travel {
        Some(word) => Some(moving::parse(word).ok_or(format!("{word} is no move"))?),
        None => None,
    };
    let view = View::new(&store.display().to_string(), &read(&store)?, clearance, asked)?;
    if let Some(name) = options.svg.map(PathBuf::from) {
        match picture::picture(&view) {
            Some(svg) => write_picture(&store, &name, &svg)?,
            None => eprintln!("{} is not written: a refused store has no picture", name.display()),
        }
    }
    let text = if options.json { json::json(&view) + "\n" } else { table::table(&view) };
    let mut out = std::io::stdout().lock();
    let done = out.write_all(text.as_bytes()).and_then(|()| out.flush());
    done.map_err(|error| format!("standard output cannot be written: {error}"))?;
    Ok(ExitCode::from(match (view.verdict.is_ok(), view.all_accepted()) {
        (false, _) => 1,
        (true, false) => 3,
        (true, true) => 0,
    }))
}

fn main() -> ExitCode {
    let words: Vec<OsString> = std::env::args_os().skip(1).collect();
    if words.iter().any(|word| word == "--help") {
        // Whoever asked for help and closes the pipe has seen enough of it.
        let _ = writeln!(std::io::stdout(), "{USAGE}");
        return ExitCode::SUCCESS;
    }
    match options(words) {
        Ok(options) => run(options).unwrap_or_else(|problem| {
            eprintln!("view: {problem}");
            ExitCode::from(2)
        }),
        Err(problem) => {
            eprintln!("view: {problem}\n{USAGE}");
            ExitCode::from(2)
        }
    }
}
