//! The public calls of the crates, as their source has them.

use crate::tree::Tree;

/// How a clause of a contract begins.
const CLAUSES: [&str; 2] = ["requires", "ensures"];

/// A public function, or a program's `main`.
pub struct Call {
    /// As `bus::is_idle`, or `traces::reading::read_trace` for a module.
    pub name: String,
    pub file: String,
    /// From the signature to the body.
    pub contract: String,
}

impl Call {
    /// `traces` of `traces::reading::read_trace`.
    pub fn crate_name(&self) -> &str {
        self.name.split("::").next().unwrap_or_default()
    }

    /// True if the contract has a clause that begins with this word.
    pub fn has(&self, word: &str) -> bool {
        self.contract.lines().any(|line| line.split_whitespace().next() == Some(word))
    }
}

pub fn calls_of(tree: &Tree) -> Vec<Call> {
    let mut calls = Vec::new();
    for path in tree.paths("crates/", ".rt") {
        let parts: Vec<&str> = path.split('/').collect();
        let [_, name, "src", modules @ .., file] = parts.as_slice() else {
            continue;
        };
        let stem = file.trim_end_matches(".rt");
        let mut place = vec![*name];
        place.extend(modules);
        if stem != "lib" && stem != "main" {
            place.push(stem);
        }
        let lines: Vec<&str> = tree.text(path).unwrap_or_default().lines().collect();
        for (at, line) in lines.iter().enumerate() {
            if let Some(function) = public_name(line).or(main_name(line)) {
                calls.push(Call {
                    name: format!("{}::{function}", place.join("::")),
                    file: path.to_string(),
                    contract: contract_at(&lines[at..]),
                });
            }
        }
    }
    calls
}

/// The name of the public function that a line begins.
fn public_name(line: &str) -> Option<&str> {
    let rest = line.trim_start().strip_prefix("pub ")?;
    let rest = rest.strip_prefix("extern \"C\" ").unwrap_or(rest);
    rest.strip_prefix("fn ")?.split(['(', '<']).next()
}

fn main_name(line: &str) -> Option<&str> {
    line.starts_with("fn main(").then_some("main")
}

/// The lines up to the one that opens the body. A clause may open on a line of its own too.
fn contract_at(lines: &[&str]) -> String {
    let is_clause = |line: &str| CLAUSES.iter().any(|word| line.trim_start().starts_with(word));
    let opens = |line: &&str| line.trim_end().ends_with('{') && !is_clause(line);
    let end = lines.iter().position(opens).unwrap_or(lines.len());
    lines[..end].join("\n")
}
