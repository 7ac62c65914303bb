//! No files of a Rust crate use each other in a circle. A file uses another if it names an item of it, by `use` or by a path. To declare a
//! module is no use of it, so a parent may name its children; once it takes something from one of them, that child may take nothing from it.

use std::collections::{BTreeMap, BTreeSet, VecDeque};

use crate::modules::Modules;
use crate::tree::Tree;

/// The files of a crate that each of its files uses.
type Uses = BTreeMap<String, BTreeSet<String>>;

/// The circles of every crate, and the files that no crate has, a sentence each.
pub fn circles(tree: &Tree) -> Vec<String> {
    let mut found = Vec::new();
    let mut seen = BTreeSet::new();
    for root in tree.paths("", ".rs").filter(|path| is_root(tree, path)) {
        let modules = Modules::of(tree, root);
        seen.extend(modules.files.values().cloned());
        found.extend(circles_in(&uses(&modules)));
    }
    let alone = tree.paths("", ".rs").filter(|path| !seen.contains(*path));
    found.extend(alone.map(|path| format!("{path} is a module of no crate.")));
    found.sort();
    found.dedup();
    found
}

/// A file that a crate begins with: of the library, a program, a test or an example.
fn is_root(tree: &Tree, path: &str) -> bool {
    let has_manifest = |folder: &str| tree.text(&format!("{folder}/Cargo.toml")).is_some();
    let Some((folder, file)) = path.rsplit_once('/') else {
        return false;
    };
    let above = |below: &str| folder.strip_suffix(below).is_some_and(has_manifest);
    match file {
        "build.rs" if has_manifest(folder) => true,
        "lib.rs" | "main.rs" => above("/src"),
        _ => above("/src/bin") || above("/tests") || above("/examples"),
    }
}

fn uses(modules: &Modules) -> Uses {
    let mut uses = Uses::new();
    for (module, path) in &modules.mentions {
        let (Some(from), Some(to)) = (modules.files.get(module), modules.file_of(module, path))
        else {
            continue;
        };
        if from != to {
            uses.entry(from.clone()).or_default().insert(to.to_string());
        }
    }
    uses
}

/// The files that lead to each other, each such group in one sentence with a shortest way around through its first file.
fn circles_in(uses: &Uses) -> Vec<String> {
    let mut left: BTreeSet<&str> = uses.keys().map(String::as_str).collect();
    let mut found = Vec::new();
    while let Some(first) = left.pop_first() {
        let Some(way) = way_around(uses, first) else {
            continue;
        };
        let group: Vec<&str> = left
            .iter()
            .copied()
            .filter(|file| leads(uses, first, file) && leads(uses, file, first))
            .collect();
        let all = format!("{first}, {}", group.join(", "));
        found.push(format!(
            "{} files use each other: {all}; one way around is {}.",
            group.len() + 1,
            way.join(" -> ")
        ));
        left.retain(|file| !group.contains(file));
    }
    found
}

fn leads(uses: &Uses, from: &str, to: &str) -> bool {
    way(uses, from, to).is_some()
}

/// A shortest way from a file back to itself.
fn way_around<'a>(uses: &'a Uses, file: &'a str) -> Option<Vec<&'a str>> {
    way(uses, file, file)
}

/// A shortest way of at least one step.
fn way<'a>(uses: &'a Uses, from: &'a str, to: &str) -> Option<Vec<&'a str>> {
    let mut ways = VecDeque::from([vec![from]]);
    let mut seen = BTreeSet::new();
    while let Some(way) = ways.pop_front() {
        let last = way.last().copied()?;
        for next in uses.get(last).into_iter().flatten().map(String::as_str) {
            let longer = || way.iter().copied().chain([next]).collect::<Vec<&str>>();
            if next == to {
                return Some(longer());
            }
            if seen.insert(next) {
                ways.push_back(longer());
            }
        }
    }
    None
}
