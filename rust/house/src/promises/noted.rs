//! The edits with what they say of themselves, in lines before their `file:`. `rt` and the tools pass over such lines.
//!
//! - `# call: lamp::is_lit, show::lit`: the public calls that it gives a wrong answer, each; none where it is a definition that is wrong.
//! - `# wrong: a lamp that is never lit`: the wrong answer, in a few words.
//! - `# refused: is_lit returns, Light all_lit`: the function or file of proofs, and the fact, at which the prover refuses it; any of these.
//! - `# device: 1 refuses every event`: of the five wrong devices, which.

use crate::edits::{edits_in, path_in, GATE, TRIED};
use crate::tree::Tree;

pub struct Noted {
    /// As `lamp/never_lit`.
    pub name: String,
    pub is_for_the_gate: bool,
    pub calls: Vec<String>,
    pub wrong: String,
    pub refused: Vec<String>,
    pub device: Option<String>,
    /// It touches what is run, or its promise.
    pub is_of_code: bool,
    /// A note that it has more than once.
    pub doubled: Option<&'static str>,
    /// What has the form of a note and is none: one word of small letters and a colon.
    pub unknown: Option<String>,
}

const NOTES: [&str; 4] = ["call", "wrong", "refused", "device"];

impl Noted {
    pub fn crate_name(&self) -> &str {
        self.name.split('/').next().unwrap_or_default()
    }

    /// Its name in a row of this crate, after a star if the gate tries it.
    pub fn shown_in(&self, krate: &str) -> String {
        let own = self.name.split_once('/').filter(|(its, _)| *its == krate);
        let name = own.map_or(self.name.as_str(), |(_, edit)| edit);
        format!("{}`{name}`", if self.is_for_the_gate { "★" } else { "" })
    }
}

/// Every edit, by folder and name.
pub fn noted(tree: &Tree) -> Vec<Noted> {
    let mut found = Vec::new();
    for folder in [GATE, TRIED] {
        for name in edits_in(tree, folder) {
            let text = tree.text(&path_in(folder, &name)).unwrap_or_default();
            found.push(noted_in(name, folder == GATE, text));
        }
    }
    found
}

fn noted_in(name: String, is_for_the_gate: bool, text: &str) -> Noted {
    let notes = |note: &str| -> Vec<&str> {
        let start = format!("# {note}: ");
        text.lines().filter_map(|line| line.strip_prefix(&start)).collect()
    };
    let parts = |note: &str| -> Vec<String> {
        notes(note).iter().flat_map(|said| said.split(", ")).map(str::to_string).collect()
    };
    let is_unknown =
        |word: &&str| word.chars().all(|c| c.is_ascii_lowercase()) && !NOTES.contains(word);
    let words = text.lines().filter_map(|line| Some(line.strip_prefix("# ")?.split_once(": ")?.0));
    Noted {
        name,
        is_for_the_gate,
        calls: parts("call"),
        wrong: notes("wrong").concat(),
        refused: parts("refused"),
        device: notes("device").first().map(|device| device.to_string()),
        is_of_code: text.lines().any(|line| line.starts_with("file: src/")),
        doubled: NOTES.into_iter().find(|note| notes(note).len() > 1),
        unknown: words.into_iter().find(is_unknown).map(str::to_string),
    }
}
