//! The statements of the crates, the records that gather them and the theorems that prove them, as the files of `specs/` and `proofs/` have them.
//!
//! A statement is a proposition with a name, of everything that it speaks of: a definition of `specs/` at the margin, `pub NAME : Type 0` (or
//! another level), so one without parameters. A definition with parameters, `pub NAME : Device → Type 0`, is a word that statements use.
//! A record of `specs/` without parameters gathers statements if one of its fields is a statement. Another record is a statement too where a
//! theorem has it for its type: it says several things together. Else it is a type of values.

use crate::tree::Tree;
use std::collections::{BTreeMap, BTreeSet};

/// A definition: its name, and the file that it stands in.
#[derive(Clone, PartialEq, Eq, PartialOrd, Ord)]
pub struct Defined {
    pub file: String,
    pub name: String,
}

/// A record without parameters, with the types of its fields.
pub struct Record {
    pub is: Defined,
    pub fields: Vec<(String, Defined)>,
}

/// A theorem whose type is one name, with the term that proves it.
pub struct Theorem {
    pub is: Defined,
    pub of: Defined,
    pub term: String,
}

pub struct Stated {
    pub statements: BTreeSet<Defined>,
    /// Those that gather statements.
    pub records: Vec<Record>,
    pub theorems: Vec<Theorem>,
}

/// What the crates state and prove.
pub fn stated(tree: &Tree) -> Stated {
    let mut statements = BTreeSet::new();
    let mut records = Vec::new();
    let mut theorems = Vec::new();
    for path in tree.paths("crates/", ".antt") {
        let text = tree.text(path).unwrap_or_default();
        if path.contains("/specs/") {
            statements.extend(statements_of(path, text));
            records.extend(records_of(path, text));
        } else if path.contains("/proofs/") {
            theorems.extend(theorems_of(path, text));
        }
    }
    let (records, others): (Vec<Record>, Vec<Record>) =
        records.into_iter().partition(|r| r.fields.iter().any(|(_, of)| statements.contains(of)));
    let proved = |record: &Record| theorems.iter().any(|theorem| theorem.of == record.is);
    statements.extend(others.into_iter().filter(proved).map(|record| record.is));
    Stated { statements, records, theorems }
}

fn statements_of(path: &str, text: &str) -> Vec<Defined> {
    text.lines()
        .filter_map(definition)
        .filter(|(name, of)| name.starts_with(char::is_uppercase) && is_level(of))
        .map(|(name, _)| defined(path, name))
        .collect()
}

fn records_of(path: &str, text: &str) -> Vec<Record> {
    let from = sources(text);
    let mut records: Vec<Record> = Vec::new();
    let mut inside = false;
    for line in text.lines() {
        if let Some(name) = record_name(line) {
            records.push(Record { is: defined(path, name), fields: Vec::new() });
            inside = true;
        } else if !line.is_empty() && !line.starts_with(' ') {
            inside = false;
        } else if let (true, Some((name, of))) = (inside, definition(line.trim_start())) {
            let field = (name.to_string(), resolved(path, &from, of));
            records.last_mut().expect("a record").fields.push(field);
        }
    }
    records
}

fn theorems_of(path: &str, text: &str) -> Vec<Theorem> {
    let from = sources(text);
    let lines: Vec<&str> = text.lines().collect();
    let mut theorems = Vec::new();
    for (at, line) in lines.iter().enumerate() {
        let Some((name, of)) = definition(line) else {
            continue;
        };
        if !of.contains(' ') {
            let term = term_at(name, &lines[at + 1..]);
            theorems.push(Theorem { is: defined(path, name), of: resolved(path, &from, of), term });
        }
    }
    theorems
}

/// The lines after a theorem's type, up to what comes next at the margin.
fn term_at(name: &str, lines: &[&str]) -> String {
    let goes_on = |line: &&&str| {
        line.is_empty() || [" ", "unfolding ", name].iter().any(|start| line.starts_with(start))
    };
    let lines: Vec<&str> = lines.iter().take_while(goes_on).copied().collect();
    lines.join("\n")
}

/// Name and type in `abbrev pub NAME : TYPE`, at the margin.
fn definition(line: &str) -> Option<(&str, &str)> {
    let (before, rest) = line.split_once("pub ")?;
    let word = before.strip_suffix(' ').unwrap_or(before);
    let (name, of) = rest.split_once(" : ")?;
    (word.chars().all(|c| c.is_ascii_lowercase()) && !name.contains(' '))
        .then_some((name, of.trim_end()))
}

/// The name in `pub record NAME : Type 0 where`.
fn record_name(line: &str) -> Option<&str> {
    let (name, of) = line.strip_prefix("pub record ")?.split_once(" : ")?;
    let level = of.strip_suffix(" where")?;
    (!name.contains(' ') && is_level(level)).then_some(name)
}

fn is_level(of: &str) -> bool {
    of.strip_prefix("Type ").is_some_and(|level| level.chars().all(|c| c.is_ascii_digit()))
}

/// The file of each name that this one takes from a crate: `use Rattle.share.specs.Laws.{AddUp}`.
fn sources(text: &str) -> BTreeMap<&str, String> {
    let mut from = BTreeMap::new();
    for line in text.lines() {
        let Some((path, names)) =
            line.strip_prefix("use Rattle.").and_then(|rest| rest.split_once(".{"))
        else {
            continue;
        };
        let Some((owner, file)) = path.split_once('.') else {
            continue;
        };
        let file = format!("crates/{owner}/{}.antt", file.replace('.', "/"));
        for name in names.trim_end_matches('}').split(", ") {
            from.insert(name, file.clone());
        }
    }
    from
}

fn resolved(path: &str, from: &BTreeMap<&str, String>, name: &str) -> Defined {
    defined(from.get(name).map_or(path, String::as_str), name)
}

fn defined(file: &str, name: &str) -> Defined {
    Defined { file: file.to_string(), name: name.to_string() }
}
