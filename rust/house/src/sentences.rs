//! Holds `docs/SENTENCES.md` to the code: whatever the page names is there, of the kind that it says, and its rows are as many as it tells.
//!
//! What stands between backquotes is a name. In a row `| sentence | definition | carried by | shown by |` the column and the form of a name tell
//! what it has to be (`names.rs`):
//!
//! - sentence: words alone.
//! - definition: names and then their file, as "`a` and `b`, `bus/specs/File.antt`; `c`, `bus/src/lib.rt`".
//! - carried by: statements and promises.
//! - shown by: examples, tests, wrong answers that are refused, stored outputs, pages; statements too, where these show a thing by runs.
//!
//! A cell without a name begins with "none: " and says why, or with "nothing yet". Names outside of tables may have any of these forms.

use crate::names::Names;
use crate::tables::{definitions_in, quoted};
use crate::tree::Tree;

/// Where the sentences of the papers stand, each with what says, carries and shows it.
pub const SENTENCES: &str = "docs/SENTENCES.md";

/// The section that tells how many rows each of the others has.
const COUNTS: &str = "Rows";

/// What a cell says where something is still to be carried or shown.
const MISSING: &str = "nothing yet";

/// What is wrong with the page, a sentence each.
pub fn sentence_faults(tree: &Tree) -> Vec<String> {
    let Some(text) = tree.text(SENTENCES) else {
        return vec![format!("There is no {SENTENCES}.")];
    };
    let names = Names::of(tree);
    let page = read_page(text);
    let mut found = page.broken.clone();
    for section in &page.sections {
        for row in &section.rows {
            found.extend(row_faults(&names, row));
        }
    }
    let prose = page.prose.iter();
    found.extend(prose.filter(|name| !names.is_known(name)).map(|name| {
        format!("{SENTENCES} names `{name}` outside of its tables, and there is no such thing.")
    }));
    found.extend(count_faults(&page));
    found
}

/// A section with the rows of its tables, each as its line and its cells.
struct Section {
    title: String,
    rows: Vec<Row>,
}

struct Row {
    line: usize,
    cells: Vec<String>,
}

struct Page {
    sections: Vec<Section>,
    /// The rows of the section that counts.
    counts: Vec<Row>,
    /// The names outside of tables.
    prose: Vec<String>,
    /// What is said of lines that cannot be read.
    broken: Vec<String>,
}

fn read_page(text: &str) -> Page {
    let mut page =
        Page { sections: Vec::new(), counts: Vec::new(), prose: Vec::new(), broken: Vec::new() };
    let mut counting = false;
    for (at, line) in text.lines().enumerate() {
        if let Some(title) = line.strip_prefix("## ") {
            counting = title == COUNTS;
            if !counting {
                page.sections.push(Section { title: title.to_string(), rows: Vec::new() });
            }
        }
        page.broken.extend(line_fault(at + 1, line));
        let Some(cells) = cells_of(line) else {
            page.prose.extend(quoted(line));
            continue;
        };
        if ["sentence", "section"].contains(&cells[0].as_str()) {
            continue;
        }
        let row = Row { line: at + 1, cells };
        match page.sections.last_mut() {
            _ if counting => page.counts.push(row),
            Some(section) => section.rows.push(row),
            None => {}
        }
    }
    page
}

fn cells_of(line: &str) -> Option<Vec<String>> {
    let inside = line.strip_prefix("| ")?.strip_suffix(" |")?;
    Some(inside.split(" | ").map(|cell| cell.trim().to_string()).collect())
}

/// A line of a table is a row or the line under its head, and backquotes come in pairs.
fn line_fault(at: usize, line: &str) -> Option<String> {
    let is_row = cells_of(line).is_some() || line.starts_with("|---");
    let is_paired = line.matches('`').count().is_multiple_of(2);
    if line.starts_with('|') && !is_row {
        Some(format!("{SENTENCES}, line {at}: a row begins with \"| \" and ends with \" |\"."))
    } else if !is_paired {
        Some(format!("{SENTENCES}, line {at}: a backquote has no partner."))
    } else {
        None
    }
}

fn row_faults(names: &Names, row: &Row) -> Vec<String> {
    let [sentence, definition, carried, shown] = row.cells.as_slice() else {
        let n = row.cells.len();
        return vec![placed(row, &format!("a row has four cells, and this one has {n}."))];
    };
    let mut told = Vec::new();
    if sentence.is_empty() {
        told.push("the row does not tell its sentence.".to_string());
    }
    for name in quoted(sentence) {
        told.push(format!("a sentence is told in words, and this one names `{name}`."));
    }
    told.extend(definition_faults(names, definition));
    for name in quoted(carried).iter().filter(|name| !names.carries(name)) {
        told.push(format!(
            "`{name}` is no statement of that crate, and no public call with a promise."
        ));
    }
    for name in quoted(shown).iter().filter(|name| !names.shows(name)) {
        told.push(format!("`{name}` is no example, test, statement, edit, stored output or page."));
    }
    for (cell, title) in [(definition, "definition"), (carried, "carried by"), (shown, "shown by")]
    {
        told.extend(silence_fault(cell, title));
    }
    told.iter().map(|fault| placed(row, fault)).collect()
}

fn placed(row: &Row, fault: &str) -> String {
    format!("{SENTENCES}, line {}: {fault}", row.line)
}

/// Names go with the file that defines them, and it does.
pub fn definition_faults(names: &Names, cell: &str) -> Vec<String> {
    let mut told = Vec::new();
    for (name, file) in definitions_in(cell) {
        if !names.is_defined(&name, &file) {
            told.push(format!("`{name}` is not defined in crates/{file}."));
        }
    }
    for part in cell.split("; ").map(quoted).filter(|part| part.len() == 1) {
        told.push(format!(
            "`{}` is a definition without its file, or a file without a definition.",
            part[0]
        ));
    }
    told
}

/// A cell names something, or says why not.
fn silence_fault(cell: &str, title: &str) -> Option<String> {
    let is_told =
        !quoted(cell).is_empty() || cell.starts_with("none: ") || cell.starts_with(MISSING);
    (!is_told).then(|| {
        format!("\"{title}\" names nothing, and says neither \"none: \" with a ground nor \"{MISSING}\".")
    })
}

/// The last table has a line for each section with its number of rows and of those in which something is missing, and one for all.
fn count_faults(page: &Page) -> Vec<String> {
    let is_missing = |row: &&Row| row.cells.iter().any(|cell| cell.contains(MISSING));
    let mut wanted: Vec<(String, usize, usize)> = page
        .sections
        .iter()
        .filter(|section| !section.rows.is_empty())
        .map(|s| (s.title.clone(), s.rows.len(), s.rows.iter().filter(is_missing).count()))
        .collect();
    let all = wanted.iter().fold((0, 0), |sum, (_, rows, missing)| (sum.0 + rows, sum.1 + missing));
    wanted.push(("all".to_string(), all.0, all.1));
    let told: Vec<Vec<String>> = page.counts.iter().map(|row| row.cells.clone()).collect();
    let mut found = Vec::new();
    for (title, rows, missing) in &wanted {
        let line = vec![title.clone(), rows.to_string(), missing.to_string()];
        if !told.contains(&line) {
            found.push(format!(
                "{SENTENCES} does not say under \"{COUNTS}\": | {} |.",
                line.join(" | ")
            ));
        }
    }
    for line in
        told.iter().filter(|line| !wanted.iter().any(|(title, ..)| Some(title) == line.first()))
    {
        found.push(format!("{SENTENCES} counts the rows of \"{}\", which has none.", line[0]));
    }
    found
}
