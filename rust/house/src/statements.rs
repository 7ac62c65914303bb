//! Holds each statement to a field of a record, each record to the one term that fills it, and `docs/STATEMENTS.md` to all of them: a proof
//! that is in no record could be deleted, and the check would still pass.

use crate::code::is_letter;
use crate::stated::{stated, Defined, Record, Stated, Theorem};
use crate::tables::quoted;
use crate::tree::Tree;

/// Where the statements are listed, a line each in plain words.
pub const STATEMENTS: &str = "docs/STATEMENTS.md";

/// What is wrong with the statements, their records or their list, a sentence each.
pub fn statement_faults(tree: &Tree) -> Vec<String> {
    let Some(page) = tree.text(STATEMENTS) else {
        return vec![format!("There is no {STATEMENTS}.")];
    };
    let stated = stated(tree);
    let lines = read_page(page);
    let mut found = Vec::new();
    for statement in &stated.statements {
        found.extend(field_fault(&stated, statement));
        found.extend(name_faults(tree, &stated, statement));
        found.extend(listing_fault(&lines, statement));
    }
    for record in &stated.records {
        found.extend(record_faults(&stated, record, page));
    }
    for line in &lines {
        found.extend(line_faults(&stated, line));
    }
    found
}

/// A statement is a field of one record.
fn field_fault(stated: &Stated, statement: &Defined) -> Option<String> {
    let fields = stated.records.iter().flat_map(|record| &record.fields);
    let Defined { file, name } = statement;
    match fields.filter(|(_, of)| of == statement).count() {
        1 => None,
        0 => Some(format!("`{name}` of {file} is a statement and a field of no record, so its proof could be lost unseen.")),
        n => Some(format!("`{name}` of {file} is a field of records {n} times.")),
    }
}

/// A theorem has its statement's name in small letters: `add_up` for `AddUp`. Where its file has another thing of that name, it is `add_up_lem`.
fn name_faults(tree: &Tree, stated: &Stated, statement: &Defined) -> Vec<String> {
    let mut wanted = String::new();
    for letter in statement.name.chars() {
        if letter.is_uppercase() && !wanted.is_empty() {
            wanted.push('_');
        }
        wanted.extend(letter.to_lowercase());
    }
    let theorems = stated.theorems.iter().filter(|theorem| theorem.of == *statement);
    theorems
        .filter(|theorem| theorem.is.name != wanted && !is_second(tree, &theorem.is, &wanted))
        .map(|theorem| {
            format!(
                "The theorem `{}` of {} proves `{}`, so its name has to be `{wanted}`.",
                theorem.is.name, theorem.is.file, statement.name
            )
        })
        .collect()
}

/// True of `add_up_lem` in a file that takes a definition `add_up` from elsewhere.
fn is_second(tree: &Tree, theorem: &Defined, wanted: &str) -> bool {
    let text = tree.text(&theorem.file).unwrap_or_default();
    let uses = text.lines().filter(|line| line.starts_with("use "));
    let mut words = uses.flat_map(|line| line.split(|c: char| !is_letter(c)));
    theorem.name == format!("{wanted}_lem") && words.any(|word| word == wanted)
}

/// A record has statements only, one term fills it, and the page says where both are.
fn record_faults(stated: &Stated, record: &Record, page: &str) -> Vec<String> {
    let Defined { file, name } = &record.is;
    let mut found = Vec::new();
    for (field, of) in &record.fields {
        if !stated.statements.contains(of) {
            found.push(format!("The field `{field}` of the record `{name}` in {file} has no statement of specs/ for its type."));
        }
    }
    let terms: Vec<&Theorem> = stated.theorems.iter().filter(|t| t.of == record.is).collect();
    if let [term] = terms.as_slice() {
        found.extend(term_faults(term, record));
        found.extend(naming_fault(term, record, page));
    } else {
        let n = terms.len();
        found.push(format!(
            "{n} terms of proofs/ fill the record `{name}` of {file}; it has to be one."
        ));
    }
    found
}

/// The term fills every field.
fn term_faults(term: &Theorem, record: &Record) -> Vec<String> {
    let Defined { file, name } = &term.is;
    let fields = record.fields.iter().map(|(field, _)| field);
    let of = &record.is.name;
    fields
        .filter(|field| !fills(&term.term, field))
        .map(|field| {
            format!("The term `{name}` of {file} does not fill the field `{field}` of `{of}`.")
        })
        .collect()
}

/// The page names the record and the files of the record and the term, over however many lines.
fn naming_fault(term: &Theorem, record: &Record, page: &str) -> Option<String> {
    let Defined { file, name } = &record.is;
    let phrase = format!("`{name}` in `{}`, filled by `{}`", short(file), short(&term.is.file));
    let words: Vec<&str> = page.split_whitespace().collect();
    let is_there = words.join(" ").contains(&phrase);
    (!is_there).then(|| format!("{STATEMENTS} does not say: record {phrase}."))
}

/// True if the term gives the field a value: `field = value`.
fn fills(term: &str, field: &str) -> bool {
    let words: Vec<&str> = term.split_whitespace().collect();
    words.windows(2).any(|pair| pair == [field, "="])
}

/// A line of the page: what it says, its statements, the files that state and, where there is such a column, prove them.
struct Line {
    says: String,
    statements: Vec<String>,
    stated_in: Vec<String>,
    proved_in: Option<Vec<String>>,
}

/// The table rows that name a statement in their second cell.
fn read_page(page: &str) -> Vec<Line> {
    let mut lines = Vec::new();
    for line in page.lines() {
        let Some(inside) = line.strip_prefix("| ").and_then(|rest| rest.strip_suffix(" |")) else {
            continue;
        };
        let cells: Vec<&str> = inside.split(" | ").collect();
        let cell = |at: usize| cells.get(at).copied().unwrap_or_default();
        let statements = quoted(cell(1));
        if !statements.is_empty() {
            lines.push(Line {
                says: cell(0).trim().to_string(),
                statements,
                stated_in: quoted(cell(2)),
                proved_in: cells.get(3).map(|cell| quoted(cell)),
            });
        }
    }
    lines
}

/// A statement has one line.
fn listing_fault(lines: &[Line], statement: &Defined) -> Option<String> {
    let Defined { file, name } = statement;
    let is_here = |line: &&Line| {
        line.statements.contains(name) && line.stated_in.iter().any(|place| place == short(file))
    };
    match lines.iter().filter(is_here).count() {
        1 => None,
        0 => Some(format!("`{name}` of {file} is a statement and has no line in {STATEMENTS}.")),
        n => Some(format!("`{name}` of {file} has {n} lines in {STATEMENTS}.")),
    }
}

/// A line says something, and what it names are statements of the files that it names, proved where it says so.
fn line_faults(stated: &Stated, line: &Line) -> Vec<String> {
    let mut found = Vec::new();
    if line.says.is_empty() {
        found.push(format!(
            "The line of {} in {STATEMENTS} does not tell in words what is stated.",
            listed(&line.statements)
        ));
    }
    let states = |name: &str, file: &str| {
        stated.statements.iter().any(|s| s.name == name && short(&s.file) == file)
    };
    found.extend(place_faults(&line.statements, &line.stated_in, "stated", states));
    let is_stated = |name: &&String| line.stated_in.iter().any(|file| states(name, file));
    let names: Vec<String> = line.statements.iter().filter(is_stated).cloned().collect();
    let proves = |name: &str, file: &str| {
        let here = stated.theorems.iter().filter(|theorem| short(&theorem.is.file) == file);
        here.map(|theorem| &theorem.of).any(|of| {
            of.name == name && line.stated_in.iter().any(|place| place == short(&of.file))
        })
    };
    if let Some(files) = &line.proved_in {
        found.extend(place_faults(&names, files, "proved", proves));
    }
    found
}

/// Each of the names is in one of the files, and each of the files has one of the names.
fn place_faults(
    names: &[String],
    files: &[String],
    word: &str,
    has: impl Fn(&str, &str) -> bool,
) -> Vec<String> {
    let mut found = Vec::new();
    if files.is_empty() {
        found.push(format!("{STATEMENTS} does not say where {} is {word}.", listed(names)));
        return found;
    }
    for name in names {
        if !files.iter().any(|file| has(name, file)) {
            found.push(format!(
                "{STATEMENTS} says that the statement `{name}` is {word} in {}; it is not.",
                listed(files)
            ));
        }
    }
    for file in files {
        if !names.iter().any(|name| has(name, file)) {
            found.push(format!(
                "{STATEMENTS} names `{file}`, where nothing of {} is {word}.",
                listed(names)
            ));
        }
    }
    found
}

/// `share/specs/Laws.antt` of `crates/share/specs/Laws.antt`: as the page names files.
fn short(file: &str) -> &str {
    file.strip_prefix("crates/").unwrap_or(file)
}

fn listed(names: &[String]) -> String {
    format!("`{}`", names.join("`, `"))
}
