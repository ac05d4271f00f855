//! Links libkennelday.a from the directory in KENNELDAY_LIB, or else from
//! target/staticlib beside the workspace.

use std::env;
use std::path::{Path, PathBuf};

const VARIABLE: &str = "KENNELDAY_LIB";

fn directory() -> PathBuf {
    if let Some(chosen) = env::var_os(VARIABLE) {
        return chosen.into();
    }
    let package = env::var_os("CARGO_MANIFEST_DIR").expect("cargo sets it");
    let workspace = Path::new(&package).parent();
    let root = workspace.and_then(Path::parent).expect("two folders up");
    root.join("target/staticlib")
}

fn main() {
    let directory = directory();
    let archive = directory.join("libkennelday.a");
    println!("cargo::rerun-if-env-changed={VARIABLE}");
    println!("cargo::rerun-if-changed=build.rs");
    println!("cargo::rerun-if-changed={}", archive.display());
    if !archive.is_file() {
        println!(
            "cargo::error={} is missing: `sh rust/library.sh` builds it, \
             and {VARIABLE} can name another directory by its full path",
            archive.display()
        );
        return;
    }
    println!("cargo::rustc-link-search=native={}", directory.display());
    println!("cargo::rustc-link-lib=static=kennelday");
}
