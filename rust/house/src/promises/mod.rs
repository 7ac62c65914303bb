//! `docs/PROMISES.md`: every public call, what it promises and the wrong answers that are refused. The page is made, by [`promises_page`], of the
//! contracts in `crates/*/src`, of the notes in the edits and of a template. [`faults`] tells where these do not fit each other, and
//! whether the page that is kept is the one that they give.

mod cited;
mod noted;
mod page;
mod template;

pub use page::promises_page;
pub use template::TEMPLATE;

use crate::calls::{calls_of, Call};
use crate::edits::{fault_of, path_in, GATE, TRIED};
use crate::groups::{groups_of, CRATES};
use crate::tree::Tree;
use cited::{cited, is_defined};
use noted::{noted, Noted};
use std::collections::BTreeSet;
use template::{is_exception, template_faults};

/// Where the page stands.
pub const LIST: &str = "docs/PROMISES.md";

/// The wrong answers that each call wants.
const WANTED: usize = 2;
/// The devices that must not pass.
const DEVICES: usize = 5;
/// The words that tell a wrong answer, at most; and the page stays below so many.
const MOST_WORDS: usize = 15;
const WORDS_OF_PAGE: usize = 4000;

const COMMAND: &str = "mkdir -p build && cargo run --release --offline --manifest-path rust/house/Cargo.toml --bin promises \
    >build/PROMISES.md && mv build/PROMISES.md docs/PROMISES.md";

/// What is wrong with contracts, edits or exceptions, a sentence each; and where nothing is, with the page.
pub fn faults(tree: &Tree) -> Vec<String> {
    let calls = calls_of(tree);
    let edits = noted(tree);
    let mut found = template_faults(tree, &calls);
    found.extend(crate_faults(tree, &calls, &edits));
    for call in &calls {
        found.extend(call_faults(tree, call, &edits));
    }
    for edit in &edits {
        found.extend(edit_faults(tree, edit, &calls));
    }
    found.extend(device_faults(&edits));
    if found.is_empty() {
        found.extend(page_fault(tree));
    }
    found
}

fn page_fault(tree: &Tree) -> Option<String> {
    let Some(kept) = tree.text(LIST) else {
        return Some(format!("There is no {LIST}."));
    };
    if kept != promises_page(tree) {
        return Some(format!(
            "{LIST} is not what contracts and edits give now. Make it anew: {COMMAND}"
        ));
    }
    let words = kept.split_whitespace().count();
    (words >= WORDS_OF_PAGE)
        .then(|| format!("{LIST} has {words} words, and is to have fewer than {WORDS_OF_PAGE}."))
}

/// The crates that have calls or edits and do not stand in the list of crates, so that the page would lack them.
fn crate_faults(tree: &Tree, calls: &[Call], edits: &[Noted]) -> Vec<String> {
    let named = calls.iter().map(Call::crate_name).chain(edits.iter().map(Noted::crate_name));
    let mut lacking: BTreeSet<&str> = named.collect();
    let groups = groups_of(tree.text(CRATES).unwrap_or_default());
    for krate in groups.iter().flat_map(|group| &group.crates) {
        lacking.remove(krate.name.as_str());
    }
    let tell = |krate| format!("{CRATES} lacks `{krate}`, which has public calls or edits.");
    lacking.into_iter().map(tell).collect()
}

// ---- calls

fn call_faults(tree: &Tree, call: &Call, edits: &[Noted]) -> Vec<String> {
    let mut found = Vec::new();
    let (name, file) = (&call.name, &call.file);
    if is_exception(tree, name) {
        return found;
    }
    if call.has("requires") {
        found.push(format!(
            "`{name}` of {file} has a `requires`: a public call answers any input, or is listed as an exception with grounds."
        ));
    }
    if !call.has("ensures") {
        found.push(format!(
            "`{name}` of {file} has no `ensures`, so it promises nothing, and it is no exception of {TEMPLATE}."
        ));
        return found;
    }
    if !is_unique(tree, call) {
        found.push(format!(
            "No `{}` in crates/{}/proofs/Unique.antt says that the promise of `{name}` leaves room for one result.",
            once_of(name),
            call.crate_name()
        ));
    }
    let wrong = edits.iter().filter(|edit| edit.calls.contains(name)).count();
    if wrong < WANTED {
        found.push(format!(
            "`{name}` has fewer than {WANTED} wrong answers, each an edit with the note `# call: {name}`: {wrong}."
        ));
    }
    for definition in cited(tree, call).iter().filter(|one| !is_defined(tree, one)) {
        found.push(format!(
            "`{name}` promises by `{}` of crates/{}, and it is not defined there.",
            definition.name, definition.file
        ));
    }
    found
}

/// `address_of_once` of `straps::address_of`: the law that two results that meet the promise are equal.
fn once_of(call: &str) -> String {
    let function = call.rsplit("::").next().unwrap_or(call);
    format!("{function}_once")
}

fn is_unique(tree: &Tree, call: &Call) -> bool {
    let law = format!("pub {} :", once_of(&call.name));
    let file = format!("crates/{}/proofs/Unique.antt", call.crate_name());
    tree.text(&file).is_some_and(|text| text.lines().any(|line| line.starts_with(&law)))
}

// ---- edits

fn edit_faults(tree: &Tree, edit: &Noted, calls: &[Call]) -> Vec<String> {
    let path = path_in(if edit.is_for_the_gate { GATE } else { TRIED }, &edit.name);
    let mut told = note_faults(edit);
    for (at, name) in edit.calls.iter().enumerate() {
        if !calls.iter().any(|call| call.name == *name) {
            told.push(format!("it names the call `{name}`, and no crate has such a public call."));
        }
        if edit.calls[..at].contains(name) {
            told.push(format!("it names the call `{name}` twice."));
        }
    }
    for place in edit.refused.iter().filter(|place| !is_place(tree, edit.crate_name(), place)) {
        told.push(format!(
            "it is said to be refused at `{place}`, and its crate has no such place."
        ));
    }
    let mut found: Vec<String> = told.iter().map(|why| format!("{path}: {why}")).collect();
    found.extend(fault_of(tree, &edit.name));
    found
}

/// What is wrong with the notes of an edit by themselves, whatever they name.
fn note_faults(edit: &Noted) -> Vec<String> {
    let mut told: Vec<String> = Vec::new();
    if let Some(note) = edit.doubled {
        told.push(format!("it has the note `# {note}:` twice."));
    }
    if let Some(note) = &edit.unknown {
        told.push(format!("its note `# {note}:` is none that is read."));
    }
    if edit.wrong.is_empty() {
        told.push("no note `# wrong:` tells its wrong answer.".to_string());
    }
    let words = edit.wrong.split_whitespace().count();
    if words > MOST_WORDS {
        told.push(format!(
            "its wrong answer has {words} words, and is to have {MOST_WORDS} at most."
        ));
    }
    if edit.is_of_code && edit.calls.is_empty() {
        told.push(
            "it touches src/, and no note `# call:` names the public call that answers wrong."
                .to_string(),
        );
    }
    told
}

/// True of `is_lit` and `is_lit returns`, if the crate has this function, and of `Light all_lit`, if a file of its proofs of this name has this fact.
fn is_place(tree: &Tree, krate: &str, place: &str) -> bool {
    let (name, fact) = place.split_once(' ').unwrap_or((place, ""));
    if let Some(text) = tree.text(&format!("crates/{krate}/proofs/{name}.antt")) {
        return text.contains(fact);
    }
    let (start, head) = (format!("crates/{krate}/src/"), format!("fn {name}("));
    let mut sources = tree.paths(&start, ".rt").filter_map(|path| tree.text(path));
    sources.any(|text| text.contains(&head))
}

/// The five wrong devices are numbered, and the gate tries each.
fn device_faults(edits: &[Noted]) -> Vec<String> {
    let mut found = Vec::new();
    let devices = edits.iter().filter(|edit| edit.device.is_some()).count();
    if devices > DEVICES {
        found.push(format!(
            "There are {DEVICES} wrong devices, and {devices} edits have the note `# device:`."
        ));
    }
    for number in 1..=DEVICES {
        let start = format!("{number} ");
        let is_it = |edit: &&Noted| edit.device.as_ref().is_some_and(|d| d.starts_with(&start));
        match edits.iter().filter(is_it).collect::<Vec<_>>()[..] {
            [edit] if edit.is_for_the_gate => {}
            [edit] => found.push(format!(
                "The gate is to try the edit `{}`, a device that must not pass, and it stands in tried/, which the gate leaves out.",
                edit.name
            )),
            [] => found.push(format!("No edit has the note `# device: {number} ...`.")),
            _ => found.push(format!("More than one edit has the note `# device: {number} ...`.")),
        }
    }
    found
}
