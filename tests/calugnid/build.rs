//! Links the static library under test.
//!
//! `CALUGNID_LIBRARY_DIR` names another folder to take it from.

use std::env;
use std::path::PathBuf;

fn folder() -> PathBuf {
    match env::var_os("CALUGNID_LIBRARY_DIR") {
        Some(folder) => PathBuf::from(folder),
        None => PathBuf::from(env!("CARGO_MANIFEST_DIR")).join("../../crates/calugnid/out"),
    }
}

fn main() {
    let archive = folder().join("libcalugnid.a");
    println!("cargo::rerun-if-env-changed=CALUGNID_LIBRARY_DIR");
    println!("cargo::rerun-if-changed={}", archive.display());
    if !archive.exists() {
        println!(
            "cargo::error={} is missing; build the library first",
            archive.display()
        );
        return;
    }
    println!("cargo::rustc-link-search=native={}", folder().display());
    println!("cargo::rustc-link-lib=static=calugnid");
}
