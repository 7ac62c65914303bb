//! The template of the page: its prose, the places that contracts and edits fill, and the exceptions with their grounds.

use crate::calls::Call;
use crate::tables::{cells_of, quoted};
use crate::tree::Tree;

/// Where it stands.
pub const TEMPLATE: &str = "rust/house/src/promises/page.md";

/// Its places, each a line of its own, and in the row of an exception the cell for its edits.
pub const PLACES: [&str; 3] = ["{devices}", "{rules}", "{calls}"];
pub const EDITS: &str = "{edits}";

/// The rows of the template's exceptions, each with its call first, then its grounds and the cell for its edits.
fn exceptions(tree: &Tree) -> Vec<(String, Vec<&str>)> {
    let text = tree.text(TEMPLATE).unwrap_or_default();
    let section = text.split("\n## ").find(|section| section.starts_with("Exceptions"));
    let rows = section.unwrap_or_default().lines().filter_map(cells_of);
    rows.filter_map(|cells| Some((quoted(cells[0]).into_iter().next()?, cells))).collect()
}

pub fn is_exception(tree: &Tree, call: &str) -> bool {
    exceptions(tree).iter().any(|(name, _)| name == call)
}

/// What reads or writes a stream, whose failures no contract can tell: its promise is of what it does until then.
fn is_of_a_stream(call: &Call) -> bool {
    call.contract.contains("io::Result<")
}

/// What the template lacks, and exceptions that are none.
pub fn template_faults(tree: &Tree, calls: &[Call]) -> Vec<String> {
    let Some(text) = tree.text(TEMPLATE) else {
        return vec![format!("There is no {TEMPLATE}.")];
    };
    let mut found = Vec::new();
    for place in PLACES {
        if !text.lines().any(|line| line == place) {
            found.push(format!("{TEMPLATE} has no line {place}."));
        }
    }
    let listed = exceptions(tree);
    for (at, (name, cells)) in listed.iter().enumerate() {
        let Some(call) = calls.iter().find(|call| call.name == *name) else {
            found.push(format!("{TEMPLATE} lists `{name}`, and no crate has such a public call."));
            continue;
        };
        if listed[..at].iter().any(|(other, _)| other == name) {
            found.push(format!("`{name}` stands in {TEMPLATE} twice."));
        }
        if !cells.get(1).is_some_and(|grounds| !grounds.is_empty() && *grounds != EDITS) {
            found.push(format!("The exception `{name}` has no grounds in {TEMPLATE}."));
        }
        if cells.last() != Some(&EDITS) {
            found.push(format!("The exception `{name}` has no cell {EDITS} in {TEMPLATE}."));
        }
        if call.has("ensures") && !call.has("requires") && !is_of_a_stream(call) {
            found.push(format!(
                "`{name}` has a promise in {}, and {TEMPLATE} lists it as an exception.",
                call.file
            ));
        }
    }
    found
}
