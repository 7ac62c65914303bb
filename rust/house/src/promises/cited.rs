//! What a promise cites: the definitions that its source takes from `specs/` by a `ghost use`, and that stand in its `ensures`.

use crate::calls::Call;
use crate::tree::Tree;

/// The kit's own library, whose definitions no page of this repository explains.
const KIT: &str = "std";

/// A definition, with its file under `crates/`.
#[derive(Clone, PartialEq)]
pub struct Cited {
    pub name: String,
    pub file: String,
}

/// The definitions that a call's promise cites, in the order in which they stand there. What the code itself declares is left out: types and
/// the cases of an enum.
pub fn cited(tree: &Tree, call: &Call) -> Vec<Cited> {
    let head = call.contract.split("ensures").next().unwrap_or_default();
    let words: Vec<&str> = promises_of(call).into_iter().flat_map(words_of).collect();
    let taken = parameters(head);
    let mut found: Vec<(usize, Cited)> = Vec::new();
    for (path, names) in used(tree.text(&call.file).unwrap_or_default()) {
        let Some((krate, file)) = path.split_once(".specs.") else {
            continue;
        };
        let place = format!("{krate}/specs/{}.antt", file.replace('.', "/"));
        if file.starts_with("declared.") || krate == KIT {
            continue;
        }
        // A file that is used whole is named before each of its definitions: `Calls.fresh_number`.
        let start = names.is_empty().then(|| format!("{file}."));
        let by_file = words.iter().enumerate().filter_map(|(at, word)| {
            let name = word.strip_prefix(start.as_deref()?)?;
            Some((at, head_of(name)))
        });
        let known = names.into_iter().filter(|name| !taken.contains(name));
        let by_name = known.filter_map(|name| Some((position(&words, name)?, name)));
        for (at, name) in by_name.chain(by_file) {
            found.push((at, Cited { name: name.to_string(), file: place.clone() }));
        }
    }
    found.sort_by_key(|(at, _)| *at);
    let mut once: Vec<Cited> = Vec::new();
    for (_, definition) in found {
        if !once.contains(&definition) {
            once.push(definition);
        }
    }
    once
}

/// Where a name stands first. One such as `if◌then◌else◌` has its words around what it is given.
fn position(words: &[&str], name: &str) -> Option<usize> {
    let mut parts = name.split('◌').filter(|part| !part.is_empty());
    let is_at = |part: &str| words.iter().position(|word| head_of(word) == part);
    let first = parts.next().and_then(is_at);
    first.filter(|_| parts.all(|part| is_at(part).is_some()))
}

/// `lamp` of `lamp.on.level`: what the fields after it are of.
fn head_of(word: &str) -> &str {
    word.split('.').next().unwrap_or_default()
}

/// The promise itself, as it stands, or the first of several.
pub fn promise_of(call: &Call) -> &str {
    promises_of(call).first().map_or("", |promise| promise.trim())
}

/// What is between the braces of each `ensures`, which may have a name before them: `ensures value { .. }`.
fn promises_of(call: &Call) -> Vec<&str> {
    let clauses = call.contract.split("ensures").skip(1);
    clauses.filter_map(|clause| clause.split_once('{')).map(|(_, rest)| up_to_brace(rest)).collect()
}

/// A text up to the brace that closes the one before it.
fn up_to_brace(text: &str) -> &str {
    let mut depth = 1;
    let end = text.find(|c| {
        depth += match c {
            '{' => 1,
            '}' => -1,
            _ => 0,
        };
        depth == 0
    });
    &text[..end.unwrap_or(text.len())]
}

/// True if the file that is said to define a name does.
pub fn is_defined(tree: &Tree, definition: &Cited) -> bool {
    let text = tree.text(&format!("crates/{}", definition.file)).unwrap_or_default();
    let head = format!("pub {} :", definition.name);
    text.lines().any(|line| {
        line.starts_with(&head)
            || line.split_once(' ').is_some_and(|(_, rest)| rest.starts_with(&head))
    })
}

/// The words of a promise. A field keeps the dot before it, so that it is not taken for a definition of the same name.
fn words_of(promise: &str) -> Vec<&str> {
    promise.split(|c: char| c.is_whitespace() || "(){},;".contains(c)).collect()
}

/// The names before a colon in the head of a function.
fn parameters(head: &str) -> Vec<&str> {
    let before =
        |part: &'_ str| part.rfind(|c: char| !c.is_alphanumeric() && c != '_').map(|at| at + 1);
    head.split(':').map(|part| &part[before(part).unwrap_or(0)..]).collect()
}

/// What a source uses of the crates' own definitions: a path, and the names that it takes from there; none where it takes a file whole.
fn used(source: &str) -> Vec<(&str, Vec<&str>)> {
    let uses = source.split("ghost use Rattle.").skip(1).filter_map(|rest| rest.split_once(';'));
    uses.map(|(line, _)| match line.split_once(".{") {
        Some((path, names)) => {
            (path, names.trim_end_matches('}').split(',').map(str::trim).collect())
        }
        None => (line, Vec::new()),
    })
    .collect()
}
