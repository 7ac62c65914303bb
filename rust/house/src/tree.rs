//! The files of a repository that the checks read.

use std::collections::{BTreeMap, BTreeSet};
use std::fs;
use std::path::Path;

/// The ends of the files that are read. A program's stored output need not be text.
const READ: [&str; 12] = [
    ".rt",
    ".antt",
    ".edit",
    ".md",
    ".rs",
    "/stdout",
    ".stdout",
    "/Cargo.toml",
    ".h",
    ".script",
    ".listing",
    ".svg",
];

/// The files beside the folders that are read.
const BESIDE: [&str; 2] = ["VERSION", "crates.txt"];

/// The folders that git does not keep.
const NOT_KEPT: [&str; 5] = [".git", "build", "target", "out", "__pycache__"];

/// Texts by their path from the repository's root, and the paths of all files, read or not.
#[derive(Clone, Default)]
pub struct Tree {
    files: BTreeMap<String, String>,
    names: BTreeSet<String>,
}

impl Tree {
    /// The repository that this crate stands in.
    pub fn of_this_repository() -> Tree {
        let root = Path::new(env!("CARGO_MANIFEST_DIR")).join("../..");
        let mut tree = Tree::default();
        for folder in ["c", "crates", "docs", "rust", "traces"] {
            tree.add(&root, folder);
        }
        for name in BESIDE {
            tree.add_file(&root, name);
        }
        tree.add_names(&root, "");
        let pages: Vec<String> =
            tree.names.iter().filter(|name| name.ends_with(".md")).cloned().collect();
        pages.iter().for_each(|page| tree.add_file(&root, page));
        tree
    }

    /// True if there is such a file or folder.
    pub fn has(&self, path: &str) -> bool {
        let inside = format!("{path}/");
        let first = self.names.range(inside.clone()..).next();
        self.names.contains(path) || first.is_some_and(|name| name.starts_with(&inside))
    }

    /// The paths of all files, read or not, in order.
    pub fn names(&self) -> impl Iterator<Item = &str> {
        self.names.iter().map(String::as_str)
    }

    /// The text of a file, if it is there.
    pub fn text(&self, path: &str) -> Option<&str> {
        self.files.get(path).map(String::as_str)
    }

    /// The paths that begin and end so, in order.
    pub fn paths<'a>(&'a self, start: &'a str, end: &'a str) -> impl Iterator<Item = &'a str> {
        self.files
            .keys()
            .map(String::as_str)
            .filter(move |path| path.starts_with(start) && path.ends_with(end))
    }

    /// Puts a file there, or another text in its place.
    pub fn put(&mut self, path: &str, text: &str) {
        self.files.insert(path.to_string(), text.to_string());
        self.names.insert(path.to_string());
    }

    /// The same with another text in the place of one that the file has once.
    pub fn replaced(mut self, path: &str, old: &str, new: &str) -> Tree {
        let text = self.text(path).unwrap_or_else(|| panic!("there is no {path}")).to_string();
        assert_eq!(text.matches(old).count(), 1, "'{old}' in {path}");
        self.put(path, &text.replace(old, new));
        self
    }

    /// Takes a file away.
    pub fn remove(&mut self, path: &str) {
        self.files.remove(path);
        self.names.remove(path);
    }

    /// The paths of all files in a folder that git keeps.
    fn add_names(&mut self, root: &Path, path: &str) {
        let folder = root.join(path);
        let entries = fs::read_dir(&folder)
            .unwrap_or_else(|e| panic!("cannot read {}: {e}", folder.display()));
        for entry in entries.flatten() {
            let name = entry.file_name().to_string_lossy().into_owned();
            let path = if path.is_empty() { name.clone() } else { format!("{path}/{name}") };
            if !entry.path().is_dir() {
                self.names.insert(path);
            } else if !NOT_KEPT.contains(&&*name) {
                self.add_names(root, &path);
            }
        }
    }

    fn add(&mut self, root: &Path, path: &str) {
        let folder = root.join(path);
        let entries = fs::read_dir(&folder)
            .unwrap_or_else(|e| panic!("cannot read {}: {e}", folder.display()));
        for entry in entries {
            let entry = entry.unwrap_or_else(|e| panic!("cannot read {}: {e}", folder.display()));
            let last = entry.file_name().to_string_lossy().into_owned();
            let name = format!("{path}/{last}");
            if NOT_KEPT.contains(&&*last) {
                continue;
            }
            if entry.path().is_dir() {
                self.add(root, &name);
            } else if READ.iter().any(|end| name.ends_with(end)) {
                self.add_file(root, &name);
            }
        }
    }

    fn add_file(&mut self, root: &Path, name: &str) {
        let bytes = fs::read(root.join(name)).unwrap_or_else(|e| panic!("cannot read {name}: {e}"));
        self.files.insert(name.to_string(), String::from_utf8_lossy(&bytes).into_owned());
    }
}
