//! Holds every place that names the version to the file VERSION. [`version_faults`] tells in sentences where one differs.

use crate::Tree;

/// Where the version stands, and the places that repeat it beside the crates' manifests.
pub const VERSION: &str = "VERSION";
pub const HEADER: &str = "c/gunwaleish.h";
pub const DEFINITION: &str = "crates/gunwaleish/specs/Version.antt";
pub const PACKAGES: &str = "docs/INSTALL.md";

/// The three numbers by their names.
const NAMES: [&str; 3] = ["major", "minor", "patch"];

/// What is wrong with the version somewhere, a sentence each.
pub fn version_faults(tree: &Tree) -> Vec<String> {
    let Some(version) = tree.text(VERSION).and_then(|text| text.strip_suffix('\n')) else {
        return vec![format!("There is no {VERSION}, or it does not end with its line.")];
    };
    let numbers: Vec<&str> = version.split('.').collect();
    if numbers.len() != NAMES.len() || !numbers.iter().all(|number| is_byte(number)) {
        return vec![format!("{VERSION} has '{version}', which is not three numbers up to 255.")];
    }
    let mut found = Vec::new();
    let manifests: Vec<&str> =
        ["rust/", "docs/"].into_iter().flat_map(|start| tree.paths(start, "/Cargo.toml")).collect();
    if manifests.is_empty() {
        found.push("No crate has a Cargo.toml.".to_string());
    }
    for path in manifests.into_iter().filter(|path| has_line(tree, path, "[package]")) {
        found.extend(lacks(tree, path, &format!("version = \"{version}\"")));
    }
    for (name, number) in NAMES.iter().zip(numbers) {
        let macro_line =
            format!("#define GUNWALEISH_VERSION_{} {number}", name.to_ascii_uppercase());
        found.extend(lacks(tree, HEADER, &macro_line));
        found.extend(lacks(tree, DEFINITION, &format!("{name} = {number}")));
    }
    found.extend(page_fault(tree, version));
    found
}

/// The page of the packages has their names, and these the version; it names no other.
fn page_fault(tree: &Tree, version: &str) -> Option<String> {
    let words = tree.text(PACKAGES)?.split(|c: char| !c.is_ascii_digit() && c != '.');
    let is_version = |word: &&str| word.split('.').filter(|part| !part.is_empty()).count() == 3;
    let other = words
        .map(|word| word.trim_matches('.'))
        .filter(is_version)
        .find(|word| *word != version)?;
    Some(format!("{PACKAGES} names the version {other}, and {VERSION} has {version}."))
}

/// A number as it is written, up to 255: each has a byte in the packed number.
fn is_byte(number: &str) -> bool {
    number.parse::<u8>().is_ok_and(|value| value.to_string() == number)
}

fn has_line(tree: &Tree, path: &str, line: &str) -> bool {
    tree.text(path).is_some_and(|text| text.lines().any(|other| other == line))
}

/// The sentence about a file that has not this line.
fn lacks(tree: &Tree, path: &str, line: &str) -> Option<String> {
    let fault = || format!("{path} has no line '{line}', as {VERSION} asks.");
    (!has_line(tree, path, line)).then(fault)
}
