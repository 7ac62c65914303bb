//! Holds `docs/DEFINITIONS.md` to the files of `crates/*/specs/`. Each file has one row, `| file | of | what it has | lines |`, no file stands
//! before one that it uses, what it is of is what the file says of itself, and its count of lines is made here.

use crate::tables::quoted;
use crate::tree::Tree;

/// Where the files of definitions are listed in reading order.
pub const DEFINITIONS: &str = "docs/DEFINITIONS.md";

/// What writes the counts again.
const MENDS: &str = "cargo run --release --offline --manifest-path rust/house/Cargo.toml --bin map";

/// What a file can be of, beside a section of document 01 and a request.
const OTHERS: [&str; 4] = ["01", "demand 3", "asked next", "the code"];

/// The sections of document 01 that definitions are of.
const SECTIONS: [&str; 6] = [
    "What is modelled",
    "Straps",
    "Registers",
    "Events",
    "Order inside a step",
    "Answers and the trace",
];

/// The section of the examples, which definitions only repeat.
const EXAMPLES: &str = "Marked examples";

/// The requests of document 02.
const REQUESTS: std::ops::RangeInclusive<u32> = 101..=114;

/// A row of the page, with its file under `crates/`.
struct Row {
    file: String,
    of: String,
    has: String,
    lines: String,
}

/// What is wrong with the page, a sentence each.
pub fn definition_faults(tree: &Tree) -> Vec<String> {
    let Some(page) = tree.text(DEFINITIONS) else {
        return vec![format!("There is no {DEFINITIONS}.")];
    };
    let rows: Vec<Row> = page.lines().filter_map(row_of).collect();
    let mut found = Vec::new();
    for file in definition_files(tree) {
        match rows.iter().filter(|row| row.file == file).count() {
            1 => {}
            0 => found.push(format!("crates/{file} has no row in {DEFINITIONS}.")),
            n => found.push(format!("crates/{file} has {n} rows in {DEFINITIONS}.")),
        }
    }
    for (at, row) in rows.iter().enumerate() {
        match tree.text(&format!("crates/{}", row.file)) {
            Some(text) if row.file.contains("/specs/") => {
                found.extend(row_faults(row, text));
                found.extend(order_faults(row, text, &rows[at + 1..]));
            }
            _ => found.push(format!("{DEFINITIONS} lists `{}`, which no crate defines.", row.file)),
        }
    }
    found
}

/// The page with the count of lines that each file has.
pub fn counted(tree: &Tree) -> Option<String> {
    let page = tree.text(DEFINITIONS)?;
    let line_of = |line: &str| {
        let row = row_of(line)?;
        let text = tree.text(&format!("crates/{}", row.file))?;
        let rest = line.strip_suffix(&format!("| {} |", row.lines))?;
        Some(format!("{rest}| {} |", text.lines().count()))
    };
    let lines = page.lines().map(|line| line_of(line).unwrap_or_else(|| line.to_string()));
    Some(lines.map(|line| line + "\n").collect())
}

/// The files of definitions under `crates/`, but for those that only list the others.
fn definition_files(tree: &Tree) -> Vec<&str> {
    let paths = tree.paths("crates/", ".antt").filter_map(|path| path.strip_prefix("crates/"));
    paths.filter(|file| file.contains("/specs/") && !file.ends_with("/Lib.antt")).collect()
}

fn row_of(line: &str) -> Option<Row> {
    let inside = line.strip_prefix("| ")?.strip_suffix(" |")?;
    let cells: Vec<&str> = inside.split(" | ").map(str::trim).collect();
    let cell = |at: usize| cells.get(at).copied().unwrap_or_default().to_string();
    let file = quoted(&cell(0)).into_iter().find(|name| name.ends_with(".antt"))?;
    Some(Row { file, of: cell(1), has: cell(2), lines: cell(3) })
}

fn row_faults(row: &Row, text: &str) -> Vec<String> {
    let Row { file, of, has, lines } = row;
    let mut found = Vec::new();
    let count = text.lines().count().to_string();
    if *lines != count {
        found.push(format!("crates/{file} has {count} lines, and {DEFINITIONS} says {lines}; this writes the counts: {MENDS}"));
    }
    if has.is_empty() {
        found.push(format!("The row of `{file}` in {DEFINITIONS} does not say what it has."));
    }
    if !is_known(of) {
        found.push(format!("The row of `{file}` in {DEFINITIONS} says that it is of '{of}', which is no section, request or demand."));
    }
    match source_of(text) {
        Some(source) if source != *of => found.push(format!(
            "crates/{file} says that it is of {source}, and {DEFINITIONS} says '{of}'."
        )),
        _ => {}
    }
    found
}

/// True of what a file can be of.
fn is_known(of: &str) -> bool {
    let section = of.strip_prefix("01, ");
    let request = of.strip_prefix('#').and_then(|number| number.parse().ok());
    OTHERS.contains(&of)
        || section.is_some_and(|name| SECTIONS.contains(&name) || name == EXAMPLES)
        || request.is_some_and(|number| REQUESTS.contains(&number))
}

/// What the first line of a file says that it is of: "Request #113" or "Document 01, "Straps"".
fn source_of(text: &str) -> Option<String> {
    let first = text.lines().next()?.replace("Request ", "request ");
    if let Some((_, rest)) = first.split_once("request ") {
        let number: String =
            rest.trim_start_matches('#').chars().take_while(char::is_ascii_digit).collect();
        return (!number.is_empty()).then(|| format!("#{number}"));
    }
    let (_, rest) = first.split_once("ocument 01, \"")?;
    let section = SECTIONS.into_iter().chain([EXAMPLES]).find(|name| rest.starts_with(name))?;
    Some(format!("01, {section}"))
}

/// A file comes after all that it uses.
fn order_faults(row: &Row, text: &str, after: &[Row]) -> Vec<String> {
    let used: Vec<String> = text.lines().filter_map(used_by).collect();
    let late = after.iter().filter(|other| used.contains(&other.file));
    late.map(|other| {
        format!(
            "`{}` stands before `{}` in {DEFINITIONS}, and uses it: the page goes in reading order.",
            row.file, other.file
        )
    })
    .collect()
}

/// `quiet/specs/Counts.antt` of `use Rattle.quiet.specs.Counts.{..}`.
fn used_by(line: &str) -> Option<String> {
    let (of, name) = line.strip_prefix("use Rattle.")?.split_once(".specs.")?;
    let name = name.split('.').next()?;
    Some(format!("{of}/specs/{name}.antt"))
}
