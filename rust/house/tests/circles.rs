//! The files of each Rust crate use each other in one direction.

use house::{circles, Tree};

#[test]
fn there_is_no_circle() {
    let found = circles(&Tree::of_this_repository());
    assert!(found.is_empty(), "\n\n{}\n", found.join("\n"));
}

/// What is told of a crate whose files have these texts, each under `src/`.
fn told(files: &[(&str, &str)]) -> Vec<String> {
    let mut tree = Tree::default();
    tree.put("rust/bus/Cargo.toml", "[package]\n");
    for (name, text) in files {
        tree.put(&format!("rust/bus/src/{name}"), text);
    }
    circles(&tree)
}

/// The files that are told of as one circle, without their folder.
fn circle(files: &[(&str, &str)]) -> String {
    let told = told(files);
    assert_eq!(told.len(), 1, "{told:?}");
    told[0].replace("rust/bus/src/", "")
}

const TWO: &str = "pub mod idle;\npub mod line;\n";

#[test]
fn two_files_that_use_each_other() {
    let back = "2 files use each other: idle.rs, line.rs; one way around is idle.rs -> line.rs -> idle.rs.";
    for (one, other) in [
        ("use crate::line::Line;", "use crate::idle::Idle;"),
        ("use super::line::Line;", "use super::idle;\nfn f() { idle::count() }"),
        ("fn f() { crate::line::level() }", "use crate::{idle::{count, Idle as Still}, other};"),
        ("use crate::line::*;", "fn f(idle: &super::idle::Idle) {}"),
    ] {
        let files = [("lib.rs", TWO), ("idle.rs", one), ("line.rs", other)];
        assert_eq!(circle(&files), back, "{one} {other}");
        let open = [("lib.rs", TWO), ("idle.rs", one), ("line.rs", "")];
        assert!(told(&open).is_empty(), "{one}");
    }
}

#[test]
fn a_longer_way_around() {
    let files = [
        ("lib.rs", "pub mod a;\npub mod b;\npub mod c;\npub mod d;\n"),
        ("a.rs", "use crate::b::B;"),
        ("b.rs", "use crate::c::C;"),
        ("c.rs", "use crate::a::A;\nuse crate::d::D;"),
        ("d.rs", ""),
    ];
    let whole =
        "3 files use each other: a.rs, b.rs, c.rs; one way around is a.rs -> b.rs -> c.rs -> a.rs.";
    assert_eq!(circle(&files), whole);
}

/// A parent that declares its child is no use of it. One that takes an item of a child which takes one of its own is a circle.
#[test]
fn a_parent_and_its_child() {
    let child = ("bus/idle.rs", "use super::Bus;\n");
    let root = ("lib.rs", "mod bus;\n");
    assert!(told(&[root, ("bus/mod.rs", "pub mod idle;\npub struct Bus;\n"), child]).is_empty());
    for uses in ["use idle::Idle;", "fn f() { idle::count() }", "pub use self::idle::Idle;"] {
        let parent = format!("mod idle;\n{uses}\npub struct Bus;\n");
        let back = "2 files use each other: bus/idle.rs, bus/mod.rs; one way around is bus/idle.rs -> bus/mod.rs -> bus/idle.rs.";
        assert_eq!(circle(&[root, ("bus/mod.rs", &parent), child]), back, "{uses}");
        // The same with the parent in a file beside its folder.
        let beside = "2 files use each other: bus.rs, bus/idle.rs; one way around is bus.rs -> bus/idle.rs -> bus.rs.";
        assert_eq!(circle(&[root, ("bus.rs", &parent), child]), beside, "{uses}");
    }
}

/// What a parent only hands on counts where it stands.
#[test]
fn an_item_that_is_handed_on() {
    let root = ("lib.rs", "mod idle;\nmod line;\npub use line::Line;\n");
    assert!(told(&[root, ("idle.rs", "use crate::Line;"), ("line.rs", "")]).is_empty());
    let files = [root, ("idle.rs", "use crate::Line;"), ("line.rs", "use crate::idle::Idle;")];
    assert!(circle(&files).starts_with("2 files use each other: idle.rs, line.rs;"));
}

/// Tests inside a file are of that file, and so is what they take from it.
#[test]
fn a_module_inside_a_file() {
    let inside = "pub struct Idle;\nmod tests {\n    use super::Idle;\n    mod more { use super::super::Idle; }\n}\n";
    assert!(told(&[("lib.rs", TWO), ("idle.rs", inside), ("line.rs", "")]).is_empty());
    let uses = "pub struct Idle;\nmod tests {\n    use super::super::line::Line;\n}\n";
    let files = [("lib.rs", TWO), ("idle.rs", uses), ("line.rs", "use crate::idle::Idle;")];
    assert!(circle(&files).starts_with("2 files use each other: idle.rs, line.rs;"));
}

/// Names in comments and strings, and those of other crates, are no uses.
#[test]
fn what_is_no_use() {
    for text in [
        "/// See [`crate::idle::Idle`].\npub struct Line;\n",
        "const WHERE: &str = \"crate::idle::Idle\";\n",
        "use other::idle::Idle;\nuse std::fmt;\n",
    ] {
        let files = [("lib.rs", TWO), ("idle.rs", "use crate::line::Line;"), ("line.rs", text)];
        assert!(told(&files).is_empty(), "{text}");
    }
}

/// A program and a test are crates of their own; a file of none is told.
#[test]
fn every_file_is_of_a_crate() {
    let mut tree = Tree::default();
    tree.put("rust/bus/Cargo.toml", "[package]\n");
    tree.put("rust/bus/src/lib.rs", "");
    tree.put("rust/bus/src/bin/count.rs", "use bus::Bus;\n");
    tree.put("rust/bus/tests/idle.rs", "mod common;\n#[path = \"common/rows.rs\"]\nmod rows;\n");
    tree.put("rust/bus/tests/common/mod.rs", "");
    tree.put("rust/bus/tests/common/rows.rs", "");
    assert!(circles(&tree).is_empty());
    tree.put("rust/bus/src/line.rs", "");
    assert_eq!(circles(&tree), ["rust/bus/src/line.rs is a module of no crate."]);
}
