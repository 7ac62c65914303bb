//! Finds the proved library, has it linked, and hands on what is written of it beside it.
//!
//! It stands where `tools/library` writes it, or in the folder that GUNWALEISH_LIB_DIR
//! names (a full path).

use std::path::{Path, PathBuf};
use std::{env, fs};

fn main() {
    println!("cargo::rerun-if-env-changed=GUNWALEISH_LIB_DIR");
    let folder = match env::var_os("GUNWALEISH_LIB_DIR") {
        Some(folder) => PathBuf::from(folder),
        None => PathBuf::from(env::var_os("CARGO_MANIFEST_DIR").unwrap_or_default())
            .join("../../build/lib"),
    };
    let library = folder.join("libgunwaleish.a");
    println!("cargo::rerun-if-changed={}", library.display());
    if !library.is_file() {
        println!(
            "cargo::error=The proved library is not at {}; run: tools/library",
            library.display()
        );
        return;
    }
    println!("cargo::rustc-link-search=native={}", folder.display());
    println!("cargo::rustc-link-lib=static=gunwaleish");
    hand_on(&folder.join("libgunwaleish.identity"));
}

/// The lines of the identity, each a word and what it names, for `src/identity.rs`.
fn hand_on(identity: &Path) {
    // One that is not there is not waited for, or cargo would build anew each time: it is written after the library, with it.
    if identity.exists() {
        println!("cargo::rerun-if-changed={}", identity.display());
    }
    let text = fs::read_to_string(identity).unwrap_or_default();
    let named = |word: &str| {
        let line = text.lines().find_map(|line| line.strip_prefix(word)?.strip_prefix(' '));
        line.map(str::trim).filter(|rest| !rest.is_empty()).unwrap_or("unknown").to_string()
    };
    for word in ["commit", "kit", "machine"] {
        println!("cargo::rustc-env=GUNWALEISH_{}={}", word.to_uppercase(), named(word));
    }
}
