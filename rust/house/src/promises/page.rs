//! Writes the page: the prose of the template, and in its places what contracts and edits give.

use super::cited::{cited, promise_of};
use super::noted::{noted, Noted};
use super::template::{is_exception, EDITS, TEMPLATE};
use crate::calls::{calls_of, Call};
use crate::groups::{groups_of, Group, CRATES};
use crate::tables::{cells_of, quoted};
use crate::tree::Tree;
use std::collections::BTreeMap;

/// The page as it has to stand now.
pub fn promises_page(tree: &Tree) -> String {
    let edits = noted(tree);
    let mut page = String::new();
    for line in tree.text(TEMPLATE).unwrap_or_default().lines() {
        match line {
            "{devices}" => page += &devices(&edits),
            "{rules}" => page += &rules(tree, &edits),
            "{calls}" => page += &calls(tree, &edits),
            _ => page += &format!("{}\n", filled(line, &edits)),
        }
    }
    page
}

/// The row of an exception with its edits.
fn filled(line: &str, edits: &[Noted]) -> String {
    let call = cells_of(line).and_then(|cells| quoted(cells[0]).into_iter().next());
    let shown = call.map_or(String::new(), |call| wrong_answers(&call, edits));
    line.replace(EDITS, if shown.is_empty() { "none" } else { &shown })
}

fn devices(edits: &[Noted]) -> String {
    let mut rows: Vec<String> = Vec::new();
    for edit in edits {
        if let Some((number, device)) = edit.device.as_deref().and_then(|d| d.split_once(' ')) {
            let places: Vec<String> = edit.refused.iter().map(|place| shown(place)).collect();
            let row =
                format!("{device} | {} | `{}` | {}", edit.wrong, edit.name, places.join(", "));
            rows.push(format!("| {number} | {row} |\n"));
        }
    }
    rows.sort();
    format!(
        "| | device | what the edit makes of it | edit | refused at |\n|---|---|---|---|---|\n{}",
        rows.concat()
    )
}

/// `Cases.grant_cases` of `Cases grant_cases`.
fn shown(place: &str) -> String {
    format!("`{}`", place.replace(' ', "."))
}

fn groups(tree: &Tree) -> Vec<Group> {
    groups_of(tree.text(CRATES).unwrap_or_default())
}

/// The edits of definitions alone, a row a crate, by the law that refuses them.
fn rules(tree: &Tree, edits: &[Noted]) -> String {
    let mut text = "| crate | refused at: wrong rules and statements |\n|---|---|\n".to_string();
    for krate in groups(tree).iter().flat_map(|group| &group.crates).map(|known| &known.name) {
        let mut laws: BTreeMap<String, Vec<String>> = BTreeMap::new();
        for edit in edits.iter().filter(|e| e.calls.is_empty() && e.crate_name() == krate) {
            let law = edit.refused.first().map_or(String::new(), |place| shown(place) + ": ");
            laws.entry(law).or_default().push(edit.shown_in(krate));
        }
        let parts: Vec<String> =
            laws.iter().map(|(law, names)| format!("{law}{}", names.join(", "))).collect();
        if !parts.is_empty() {
            text += &format!("| `{krate}` | {} |\n", parts.join("; "));
        }
    }
    text
}

/// A table for each group of crates that has calls with a promise.
fn calls(tree: &Tree, edits: &[Noted]) -> String {
    let all = calls_of(tree);
    let mut text = String::new();
    for group in groups(tree) {
        let mut rows = String::new();
        for krate in &group.crates {
            for call in all.iter().filter(|call| call.crate_name() == krate.name) {
                if !is_exception(tree, &call.name) {
                    rows += &row(tree, call, edits);
                }
            }
        }
        if !rows.is_empty() {
            let head = "| call | promises | wrong answers refused |\n|---|---|---|\n";
            text += &format!("### {}\n\n{head}{rows}\n", group.title);
        }
    }
    text.trim_end().to_string() + "\n"
}

fn row(tree: &Tree, call: &Call, edits: &[Noted]) -> String {
    let mut files: Vec<(String, Vec<String>)> = Vec::new();
    for definition in cited(tree, call) {
        let name = format!("`{}`", definition.name);
        match files.iter_mut().find(|(file, _)| *file == definition.file) {
            Some((_, names)) => names.push(name),
            None => files.push((definition.file, vec![name])),
        }
    }
    let parts: Vec<String> =
        files.iter().map(|(file, names)| format!("{}, `{file}`", names.join(", "))).collect();
    let promise =
        if parts.is_empty() { format!("`{}`", promise_of(call)) } else { parts.join("; ") };
    format!("| `{}` | {promise} | {} |\n", call.name, wrong_answers(&call.name, edits))
}

/// The edits of a call: those that the gate tries first, and those of the call's own crate before others.
fn wrong_answers(call: &str, edits: &[Noted]) -> String {
    let krate = call.split("::").next().unwrap_or_default();
    let is_of_call = |edit: &&Noted| edit.calls.iter().any(|name| name == call);
    let mut of_call: Vec<&Noted> = edits.iter().filter(is_of_call).collect();
    of_call.sort_by_key(|edit| (!edit.is_for_the_gate, edit.crate_name() != krate));
    of_call.iter().map(|edit| edit.shown_in(krate)).collect::<Vec<_>>().join(", ")
}
