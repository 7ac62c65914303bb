//! No function is longer than [`LONGEST`] lines, from its `fn` to the brace that ends it, in any Rust file of the repository, tests and
//! examples too. No line of a proof is wider than [`WIDEST`] characters, and few files of Rattle are longer than [`LONGEST_FILE`] lines.

use crate::code::{bare, is_letter, words, Word};
use crate::tree::Tree;

/// The most lines that a function may have.
pub const LONGEST: usize = 40;

/// The most characters that a line of a proof may have.
pub const WIDEST: usize = 160;

/// The most lines that a file of code, definitions or proofs may have.
pub const LONGEST_FILE: usize = 300;

/// The files that may be longer: the file, and the ground.
const LONGER_FILES: &[(&str, &str)] = &[
    (
        "crates/traces/proofs/playing/play/Answers.antt",
        "the answers of one loop, which is one function because it has to be fast",
    ),
    (
        "crates/traces/proofs/Arms.antt",
        "the arms of one loop, each over the same parts of a device",
    ),
    ("crates/traces/src/playing.rt", "one loop, which is one function because it has to be fast"),
];

/// The functions that may be longer: file, name, and the ground.
const LONGER: &[(&str, &str, &str)] = &[];

/// The functions that are longer and may not be, and those that may and are not, a sentence each.
pub fn long_functions(tree: &Tree) -> Vec<String> {
    let mut found = Vec::new();
    for path in tree.paths("", ".rs") {
        let may: Vec<&str> = LONGER.iter().filter(|l| l.0 == path).map(|l| l.1).collect();
        let bare = bare(tree.text(path).unwrap_or_default());
        let long: Vec<Function> =
            functions(&words(&bare)).into_iter().filter(|f| f.lines > LONGEST).collect();
        for Function { name, line, lines } in &long {
            if !may.contains(name) {
                found.push(format!(
                    "{path}, line {line}: `{name}` has {lines} lines; {LONGEST} are the most."
                ));
            }
        }
        for name in may.iter().filter(|name| !long.iter().any(|f| f.name == **name)) {
            found.push(format!(
                "rust/house/src/lengths.rs lets `{name}` of {path} be longer than {LONGEST} lines, and it is not."
            ));
        }
    }
    found
}

/// The lines of proofs that are too wide, a sentence each.
pub fn wide_lines(tree: &Tree) -> Vec<String> {
    let mut found = Vec::new();
    for path in tree.paths("crates/", ".antt").filter(|path| path.contains("/proofs/")) {
        for (at, line) in tree.text(path).unwrap_or_default().lines().enumerate() {
            let wide = line.chars().count();
            if wide > WIDEST {
                found.push(format!(
                    "{path}, line {}: {wide} characters; {WIDEST} are the most.",
                    at + 1
                ));
            }
        }
    }
    found
}

/// The files of Rattle that are longer and may not be, and those that may and are not, a sentence each.
pub fn long_files(tree: &Tree) -> Vec<String> {
    let mut found = Vec::new();
    for path in [".rt", ".antt"].iter().flat_map(|end| tree.paths("crates/", end)) {
        let lines = tree.text(path).unwrap_or_default().lines().count();
        let may = LONGER_FILES.iter().any(|longer| longer.0 == path);
        if lines > LONGEST_FILE && !may {
            found.push(format!("{path} has {lines} lines; {LONGEST_FILE} are the most."));
        }
        if lines <= LONGEST_FILE && may {
            found.push(format!(
                "rust/house/src/lengths.rs lets {path} be longer than {LONGEST_FILE} lines, and it is not."
            ));
        }
    }
    found
}

struct Function<'a> {
    name: &'a str,
    line: usize,
    lines: usize,
}

/// The functions that have a body. One inside another is counted in both.
fn functions<'a>(words: &[Word<'a>]) -> Vec<Function<'a>> {
    let heads = words.windows(2).enumerate();
    heads
        .filter(|(_, two)| two[0].text == "fn" && two[1].text.starts_with(is_letter))
        .filter_map(|(at, two)| {
            let (line, name) = (two[0].line, two[1].text);
            let body = at + body(&words[at..])?;
            let last = body + matching(&words[body..])?;
            Some(Function { name, line, lines: words[last].line - line + 1 })
        })
        .collect()
}

/// Where the body begins after a `fn`, if there is one: a brace outside of brackets, and no `;` before it.
fn body(words: &[Word]) -> Option<usize> {
    let mut depth = 0_i32;
    for (at, word) in words.iter().enumerate() {
        match word.text {
            "(" | "[" => depth += 1,
            ")" | "]" => depth -= 1,
            "{" if depth == 0 => return Some(at),
            ";" if depth == 0 => return None,
            _ => {}
        }
    }
    None
}

/// Where the brace that is first is closed.
fn matching(words: &[Word]) -> Option<usize> {
    let mut depth = 0_i32;
    words.iter().position(|word| {
        depth += match word.text {
            "{" => 1,
            "}" => -1,
            _ => return false,
        };
        depth == 0
    })
}
