//! Finds libcapi.a and librecords.a: in the directory that JORGHIPA_LIB names, else in target/staticlib of the repository.

use std::env;
use std::path::PathBuf;

/// Where cargo was called. A relative name is meant from there, but this script runs in the crate's folder.
fn called_from() -> PathBuf {
    let cargo = format!("/proc/{}/cwd", std::os::unix::process::parent_id());
    let shell = || env::var_os("PWD").map(PathBuf::from);
    std::fs::read_link(cargo).ok().or_else(shell).unwrap_or_default()
}

fn main() {
    let repository = || PathBuf::from(env!("CARGO_MANIFEST_DIR")).join("../../target/staticlib");
    let place = env::var_os("JORGHIPA_LIB").map_or_else(repository, |named| called_from().join(named));
    println!("cargo::rerun-if-env-changed=JORGHIPA_LIB");
    println!("cargo::rustc-link-search=native={}", place.display());
    let records = env::var_os("CARGO_FEATURE_RECORDS").map(|_| "records");
    for name in std::iter::once("capi").chain(records) {
        let archive = place.join(format!("lib{name}.a"));
        println!("cargo::rerun-if-changed={}", archive.display());
        if !archive.exists() {
            println!("cargo::error={} is missing: run `tools/archives {name}`, or set JORGHIPA_LIB", archive.display());
            return;
        }
        println!("cargo::rustc-link-lib=static={name}");
    }
}
