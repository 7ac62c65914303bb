//! The edits that show wrong answers refused: `crates/CRATE/must-fail/NAME.edit`, which the gate tries, and `crates/CRATE/tried/NAME.edit`.

use crate::tree::Tree;
use std::collections::BTreeMap;

pub fn path_in(folder: &str, name: &str) -> String {
    let (krate, edit) = name.split_once('/').unwrap_or(("", name));
    format!("crates/{krate}/{folder}/{edit}.edit")
}

/// The folder of the edits that the gate tries, and of those that it leaves out.
pub const GATE: &str = "must-fail";
pub const TRIED: &str = "tried";

/// The edits that stand in a folder of their crate, as `crate/name`.
pub fn edits_in(tree: &Tree, folder: &str) -> Vec<String> {
    let between = format!("/{folder}/");
    let name = |path: &str| {
        path.strip_prefix("crates/")?
            .strip_suffix(".edit")?
            .split_once(&between)
            .map(|(a, b)| format!("{a}/{b}"))
    };
    tree.paths("crates/", ".edit").filter_map(name).collect()
}

/// What is wrong with the edit of this name.
pub fn fault_of(tree: &Tree, name: &str) -> Option<String> {
    let (gate, tried) = (path_in(GATE, name), path_in(TRIED, name));
    let (path, text) = match (tree.text(&gate), tree.text(&tried)) {
        (None, None) => {
            return Some(format!("There is no edit `{name}`: neither {gate} nor {tried}."))
        }
        (Some(_), Some(_)) => {
            return Some(format!("The edit `{name}` stands twice: {gate} and {tried}."))
        }
        (Some(text), None) => (gate, text),
        (None, Some(text)) => (tried, text),
    };
    let folder = path.rsplit_once('/')?.0.rsplit_once('/')?.0;
    apply(tree, folder, text).err().map(|why| format!("{path}: {why}"))
}

/// Applies an edit as `rt` does, and tells where it does not fit. A `file:` line holds for the pairs of `old:` and `new:` after it.
fn apply(tree: &Tree, folder: &str, edit: &str) -> Result<(), String> {
    let mut edited: BTreeMap<String, String> = BTreeMap::new();
    let mut file = String::new();
    let mut old = "";
    let mut pairs = 0;
    for line in edit.lines() {
        if let Some(path) = line.strip_prefix("file: ") {
            file = format!("{folder}/{path}");
        } else if let Some(text) = line.strip_prefix("old: ") {
            old = text;
        } else if let Some(new) = line.strip_prefix("new:") {
            let new = new.strip_prefix(' ').unwrap_or(new);
            let Some(text) = edited.get(&file).map(String::as_str).or(tree.text(&file)) else {
                return Err(format!("there is no {file}."));
            };
            let count = text.matches(old).count();
            if old.is_empty() || count != 1 {
                return Err(format!(
                    "its old text `{old}` occurs {count} times in {file}, and has to occur once."
                ));
            }
            if old == new {
                return Err("its old and its new text are the same.".to_string());
            }
            let text = text.replacen(old, new, 1);
            edited.insert(file.clone(), text);
            old = "";
            pairs += 1;
        }
    }
    if pairs == 0 {
        return Err("it has no old and new text.".to_string());
    }
    Ok(())
}
