//! The version stands in the file VERSION, and every other place agrees with it.

use house::{version_faults, Tree, DEFINITION, HEADER, PACKAGES, VERSION};

#[test]
fn every_place_has_the_version() {
    let found = version_faults(&Tree::of_this_repository());
    assert!(found.is_empty(), "\n\n{}\n", found.join("\n"));
}

/// How many faults are told where one text of a file is replaced by another.
fn told(tree: &Tree, path: &str, old: &str, new: &str) -> usize {
    let mut tree = tree.clone();
    let text = tree.text(path).unwrap_or_else(|| panic!("there is no {path}")).to_string();
    assert!(text.contains(old), "{path} has no {old}");
    tree.put(path, &text.replacen(old, new, 1));
    version_faults(&tree).len()
}

#[test]
fn another_version_is_told() {
    let tree = Tree::of_this_repository();
    for path in [
        "rust/gunwaleish/Cargo.toml",
        "rust/tool/Cargo.toml",
        "rust/house/Cargo.toml",
        "docs/stepper/Cargo.toml",
    ] {
        assert_eq!(told(&tree, path, "\nversion = \"", "\nversion = \"9"), 1, "{path}");
    }
    for name in ["MAJOR", "MINOR", "PATCH"] {
        let define = format!("#define GUNWALEISH_VERSION_{name} ");
        assert_eq!(told(&tree, HEADER, &define, &format!("{define}9")), 1, "{name}");
    }
    for name in ["major", "minor", "patch"] {
        assert_eq!(told(&tree, DEFINITION, &format!("\n{name} = "), &format!("\n{name} = 9")), 1);
    }
}

#[test]
fn another_version_on_the_page_of_the_packages_is_told() {
    let tree = Tree::of_this_repository();
    for word in ["/dist-", "dpkg -i gunwaleish_", "tar -xzf gunwaleish-", "\ngunwaleish "] {
        assert_eq!(told(&tree, PACKAGES, word, &format!("{word}9")), 1, "{word}");
    }
}

#[test]
fn a_file_that_is_no_version_is_told() {
    let mut tree = Tree::of_this_repository();
    for text in ["", "1.0", "1.0.0", "1.0.0.0\n", "1.0.256\n", "01.0.0\n", "1.0.x\n", "v1.0.0\n"] {
        tree.put(VERSION, text);
        assert_eq!(version_faults(&tree).len(), 1, "{text:?}");
    }
    tree.remove(VERSION);
    assert_eq!(version_faults(&tree).len(), 1);
}

#[test]
fn another_version_in_the_file_is_told_of_every_place() {
    let mut tree = Tree::of_this_repository();
    let manifests = tree
        .paths("", "/Cargo.toml")
        .filter(|path| tree.text(path).is_some_and(|text| text.contains("[package]")))
        .count();
    assert!(manifests >= 7, "{manifests}");
    tree.put(VERSION, "201.202.203\n");
    // Three of the header and three of the definition, and the page of the packages.
    assert_eq!(version_faults(&tree).len(), manifests + 7);
}
