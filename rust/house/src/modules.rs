//! The modules of a Rust crate: the files that its root declares, and the paths that each of them mentions.

use std::collections::BTreeMap;

use crate::code::{bare, is_letter, words, Word};
use crate::tree::Tree;

/// The names from the crate's root to a module, or on to an item in it.
pub type Path = Vec<String>;

/// A crate by its modules.
#[derive(Default)]
pub struct Modules {
    /// The file that each module stands in. One written inside another stands in that one's file.
    pub files: BTreeMap<Path, String>,
    /// Every path that a module mentions, as it is written there.
    pub mentions: Vec<(Path, Path)>,
    /// The names that a module takes from elsewhere, each with the path it takes it by.
    taken: BTreeMap<(Path, String), Path>,
}

impl Modules {
    /// The modules below a root, such as `src/lib.rs`.
    pub fn of(tree: &Tree, root: &str) -> Modules {
        let mut modules = Modules::default();
        modules.add(tree, Vec::new(), root, folder_of(root));
        modules
    }

    fn add(&mut self, tree: &Tree, module: Path, file: &str, children: &str) {
        let text = tree.text(file).unwrap_or_default();
        self.files.insert(module.clone(), file.to_string());
        let bare = bare(text);
        let words = words(&bare);
        let mut reading = Reading { modules: self, file, words: &words, at: 0 };
        for (child, line) in reading.read(module) {
            let named = path_before(text, line).map(|name| format!("{}/{name}", folder_of(file)));
            let folder = joined(children, &child);
            let places = [Some(format!("{folder}.rs")), Some(format!("{folder}/mod.rs")), named];
            if let Some(file) = places.into_iter().flatten().find(|f| tree.text(f).is_some()) {
                self.add(tree, child, &file, children);
            }
        }
    }

    /// The file that a path leads to, through the names that modules on the way take from elsewhere. `None` if it leads out of the crate.
    pub fn file_of(&self, module: &Path, path: &[String]) -> Option<&str> {
        let mut place = self.place_of(module, path)?;
        // A name may be handed on more than once, and never in a ring.
        for _ in 0..8 {
            let length = (0..=place.len()).rev().find(|n| self.files.contains_key(&place[..*n]))?;
            let (module, item) = (place[..length].to_vec(), &place[length..]);
            let handed =
                item.first().and_then(|name| self.taken.get(&(module.clone(), name.clone())));
            let further = handed.and_then(|path| self.place_of(&module, path));
            let Some(further) = further.filter(|further| !further.starts_with(&place)) else {
                return self.files.get(&module).map(String::as_str);
            };
            place = further.into_iter().chain(item[1..].iter().cloned()).collect();
        }
        None
    }

    /// A path as one from the root.
    fn place_of(&self, module: &Path, path: &[String]) -> Option<Path> {
        let (first, rest) = path.split_first()?;
        let start = match first.as_str() {
            "crate" => Vec::new(),
            "self" => module.clone(),
            "super" => module.split_last()?.1.to_vec(),
            name => {
                let child: Path = module.iter().cloned().chain([name.to_string()]).collect();
                if self.files.contains_key(&child) {
                    child
                } else {
                    let taken = self.taken.get(&(module.clone(), name.to_string()))?;
                    if taken.first() == Some(first) {
                        return None;
                    }
                    self.place_of(module, taken)?
                }
            }
        };
        if rest.first().is_some_and(|name| name == "super") {
            return self.place_of(&start, rest);
        }
        Some(start.into_iter().chain(rest.iter().cloned()).collect())
    }
}

/// One file as it is read.
struct Reading<'a> {
    modules: &'a mut Modules,
    file: &'a str,
    words: &'a [Word<'a>],
    at: usize,
}

impl<'a> Reading<'a> {
    /// Notes what the file mentions, and gives the modules that it declares, each with its line.
    fn read(&mut self, module: Path) -> Vec<(Path, usize)> {
        let mut declared = Vec::new();
        let mut module = module;
        // The depth of braces at which each module inside this file ends.
        let mut ends = Vec::new();
        let mut depth = 0;
        while let Some(word) = self.words.get(self.at) {
            match word.text {
                "mod" => self.module(&mut module, &mut ends, depth, &mut declared),
                "use" => {
                    self.at += 1;
                    self.taken(&module, Vec::new());
                }
                "{" => depth += 1,
                "}" => {
                    depth -= 1;
                    if ends.last() == Some(&depth) {
                        ends.pop();
                        module.pop();
                    }
                }
                name if name.starts_with(is_letter) && self.next() == Some("::") => {
                    let path = self.path();
                    self.modules.mentions.push((module.clone(), path));
                }
                _ => {}
            }
            self.at += 1;
        }
        declared
    }

    fn next(&self) -> Option<&'a str> {
        self.words.get(self.at + 1).map(|word| word.text)
    }

    /// After `mod`: a module in a file of its own, or one in braces.
    fn module(
        &mut self,
        module: &mut Path,
        ends: &mut Vec<usize>,
        depth: usize,
        declared: &mut Vec<(Path, usize)>,
    ) {
        let Some([name, after]) = self.words.get(self.at + 1..self.at + 3) else {
            return;
        };
        let child: Path = module.iter().cloned().chain([name.text.to_string()]).collect();
        match after.text {
            ";" => declared.push((child, name.line)),
            "{" => {
                self.modules.files.insert(child.clone(), self.file.to_string());
                *module = child;
                ends.push(depth);
            }
            _ => {}
        }
    }

    /// The names from here on that have two colons between them. The last of their words is the one that is looked at then.
    fn path(&mut self) -> Path {
        let mut path = vec![self.words[self.at].text.to_string()];
        while let Some([colons, name]) = self.words.get(self.at + 1..self.at + 3) {
            if colons.text != "::" || !name.text.starts_with(is_letter) {
                break;
            }
            path.push(name.text.to_string());
            self.at += 2;
        }
        path
    }

    /// After `use`, or inside its braces: what is taken by the path so far and the names here.
    fn taken(&mut self, module: &Path, before: Path) {
        let mut path = before.clone();
        while let Some(word) = self.words.get(self.at) {
            match word.text {
                "{" => {
                    self.at += 1;
                    self.taken(module, path.clone());
                    path.clear();
                }
                "," | "}" | ";" => {
                    self.take(module, &path, None);
                    path = before.clone();
                    if word.text != "," {
                        return;
                    }
                }
                "as" => {
                    self.at += 1;
                    let name = self.words.get(self.at).map(|word| word.text);
                    self.take(module, &path, name);
                    path.clear();
                }
                name if name.starts_with(is_letter) => path.push(name.to_string()),
                _ => {}
            }
            self.at += 1;
        }
    }

    fn take(&mut self, module: &Path, path: &Path, name: Option<&str>) {
        let mut path = path.clone();
        if path.len() > 1 && path.last().is_some_and(|name| name == "self") {
            path.pop();
        }
        let Some(last) = path.last() else {
            return;
        };
        let name = name.unwrap_or(last).to_string();
        self.modules.mentions.push((module.clone(), path.clone()));
        self.modules.taken.insert((module.clone(), name), path);
    }
}

/// The file that an attribute before a declaration names.
fn path_before(text: &str, line: usize) -> Option<&str> {
    let before = text.lines().nth(line.checked_sub(2)?)?;
    before.trim().strip_prefix("#[path = \"")?.strip_suffix("\"]")
}

/// Where a child stands: below the folder of the crate's root, by its path.
fn joined(root: &str, child: &Path) -> String {
    format!("{root}/{}", child.join("/"))
}

fn folder_of(file: &str) -> &str {
    file.rsplit_once('/').map_or("", |(folder, _)| folder)
}
