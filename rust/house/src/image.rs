//! Holds the table of `docs/IMAGE.md` to the definition of the image. [`image_faults`] tells in sentences where the two differ.

use crate::Tree;

/// Where the page and the definitions stand.
pub const PAGE: &str = "docs/IMAGE.md";
pub const LAYOUT: &str = "crates/layout/specs/Layout.antt";
pub const RULES: &str = "crates/arbiter/specs/Rules.antt";

/// A row of the table: where it stands, how many bytes it has, the field of the record, and its range in words.
#[derive(Clone, Debug, PartialEq)]
struct Row {
    offset: usize,
    bytes: usize,
    record: String,
    range: String,
}

/// What is wrong with the page, a sentence each.
pub fn image_faults(tree: &Tree) -> Vec<String> {
    let (Some(page), Some(layout), Some(rules)) =
        (tree.text(PAGE), tree.text(LAYOUT), tree.text(RULES))
    else {
        return vec![format!("One of {PAGE}, {LAYOUT} and {RULES} is missing.")];
    };
    let told = rows_of_page(page);
    let defined = rows_of_layout(layout, &idle_limits(rules));
    let mut found = Vec::new();
    for at in 0..told.len().max(defined.len()) {
        match (told.get(at), defined.get(at)) {
            (Some(row), Some(meant)) if row == meant => {}
            (row, meant) => {
                found.push(format!("Row {at} of {PAGE} is {row:?}, and {LAYOUT} has {meant:?}."))
            }
        }
    }
    let length = defined.last().map_or(0, |row| row.offset + row.bytes);
    if defined.is_empty() || !layout.contains(&format!("\nimage_length = {length}\n")) {
        found.push(format!(
            "The rows of {LAYOUT} have {length} bytes, and its image_length is another."
        ));
    }
    if !page.contains(&format!(" {length} bytes")) {
        found.push(format!("{PAGE} does not say that an image has {length} bytes."));
    }
    found
}

/// The rows of six cells that begin with a number.
fn rows_of_page(page: &str) -> Vec<Row> {
    let mut rows = Vec::new();
    for line in page.lines() {
        let Some(inside) = line.strip_prefix("| ").and_then(|rest| rest.strip_suffix(" |")) else {
            continue;
        };
        let cells: Vec<&str> = inside.split(" | ").collect();
        let [offset, bytes, _, record, _, range] = cells[..] else {
            continue;
        };
        if let (Ok(offset), Ok(bytes)) = (offset.parse(), bytes.parse()) {
            rows.push(Row {
                offset,
                bytes,
                record: record.replace('`', ""),
                range: range.to_string(),
            });
        }
    }
    rows
}

/// The rows of the groups, in the order in which `image_of` lays them out.
fn rows_of_layout(layout: &str, limits: &[&str]) -> Vec<Row> {
    let image = layout.split_once("\nimage_of d =").map_or("", |(_, rest)| rest);
    let image = image.split_once("\n\n").map_or(image, |(first, _)| first);
    let mut rows = Vec::new();
    let mut offset = 0;
    for group in image.split("laid_out ").skip(1) {
        let mut words = group.split(|c: char| !c.is_alphanumeric()).filter(|word| !word.is_empty());
        let name = words.next().unwrap_or_default();
        let side = if words.next() == Some("One") { "side1" } else { "side0" };
        for line in group_lines(layout, name) {
            let bytes = if line.starts_with("word ") { 2 } else { 1 };
            rows.push(Row {
                offset,
                bytes,
                record: record_of(line, side),
                range: range_of(line, limits),
            });
            offset += bytes;
        }
    }
    rows
}

/// The lines of a group's list, one for each row.
fn group_lines<'a>(layout: &'a str, name: &str) -> Vec<&'a str> {
    let body = [format!("\n{name} ="), format!("\n{name} m =")]
        .iter()
        .find_map(|head| layout.split_once(head.as_str()))
        .map_or("", |(_, rest)| rest);
    let list = body.split_once("∷ []").map_or(body, |(list, _)| list);
    list.lines()
        .map(|line| line.trim().trim_start_matches("∷ ").trim())
        .filter(|line| !line.is_empty())
        .collect()
}

/// `side0.mail.low` of `(side m d).mail.low`, and `bus.hold` of `d.bus.hold`.
fn record_of(line: &str, side: &str) -> String {
    if line.starts_with("contr ") {
        return format!("{side}.contr");
    }
    let (side, path) = match line.split_once("(side m d).") {
        Some((_, path)) => (format!("{side}."), path),
        None => (String::new(), line.split_once(" d.").map_or("", |(_, path)| path)),
    };
    let path = path.split([')', ';']).next().unwrap_or_default().trim();
    format!("{side}{path}")
}

fn range_of(line: &str, limits: &[&str]) -> String {
    if line.starts_with("contr ") {
        return "bit 1 clear".to_string();
    }
    if line.contains("top = limit_of") {
        return match limits {
            [first, second] => format!("0 to {first}, or to {second} for kind 1"),
            _ => "no limits".to_string(),
        };
    }
    let top = if line.contains("(flag ") {
        "1"
    } else {
        line.split_once("up_to ").map_or("", |(_, top)| top.trim_end_matches(')'))
    };
    format!("0 to {top}")
}

/// The idle limits of the two kinds, as `rules_of` has them.
fn idle_limits(rules: &str) -> Vec<&str> {
    rules
        .split("idle_limit = ")
        .skip(1)
        .filter_map(|rest| rest.split(';').next())
        .filter(|n| n.parse::<u32>().is_ok())
        .collect()
}
