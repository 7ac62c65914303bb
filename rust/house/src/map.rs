//! Holds README's map to the repository: every group of `crates.txt` with its crates, every page of `docs/`, every tool, every folder. The kept
//! picture is the one that is drawn, and CONTRIBUTING has a row for each crate.

use crate::groups::{groups_of, Group, CRATES};
use crate::picture::{house_picture, HOUSE};
use crate::tables::quoted;
use crate::tree::Tree;

/// Where the map stands, where each crate has its row, and where each page has its reader.
pub const README: &str = "README.md";
pub const CONTRIBUTING: &str = "CONTRIBUTING.md";
pub const INDEX: &str = "docs/README.md";

/// What draws the picture again.
const DRAWS: &str = "cargo run --release --offline --manifest-path rust/house/Cargo.toml --bin map";

/// What is not on the map, or on it and not there, a sentence each.
pub fn map_faults(tree: &Tree) -> Vec<String> {
    let page = |name: &str| tree.text(name).unwrap_or_default();
    let groups = groups_of(page(CRATES));
    let mut found = group_faults(&groups, page(README));
    found.extend(crate_faults(&groups, page(CONTRIBUTING)));
    for place in places_of(tree) {
        if !is_named(page(README), &place) {
            found.push(format!("{README} does not name `{place}`."));
        }
    }
    for place in pages_of(tree) {
        let name = place.trim_start_matches("docs/");
        if !is_named(page(INDEX), name) {
            found.push(format!("{INDEX} does not name `{name}`."));
        }
    }
    if house_picture(tree).as_deref() != tree.text(HOUSE) {
        found.push(format!("{HOUSE} is not what {CRATES} gives; this draws it again: {DRAWS}"));
    }
    found
}

/// True if a page has this between backquotes.
fn is_named(page: &str, name: &str) -> bool {
    page.contains(&format!("`{name}`"))
}

/// The pages of `docs/`, but for the one that lists them.
fn pages_of(tree: &Tree) -> Vec<String> {
    let pages = tree.paths("docs/", ".md").filter(|path| path.matches('/').count() == 1);
    pages.filter(|path| *path != INDEX).map(str::to_string).collect()
}

/// What README names beside the crates: the folders at the root and the parts of rust/, the pages and the tools.
fn places_of(tree: &Tree) -> Vec<String> {
    let mut places = pages_of(tree);
    places.push(INDEX.to_string());
    for name in tree.names() {
        match name.split('/').collect::<Vec<&str>>().as_slice() {
            ["tools", _] => places.push(name.to_string()),
            ["rust", part, "Cargo.toml"] => places.push(format!("rust/{part}/")),
            // The groups stand for crates/, the parts for rust/, the tools for tools/ and the pages for docs/.
            ["crates" | "rust" | "tools" | "docs", ..] => {}
            [folder, _, ..] if !folder.starts_with('.') => places.push(format!("{folder}/")),
            [page] if page.ends_with(".md") && *page != README => places.push(page.to_string()),
            _ => {}
        }
    }
    places.sort();
    places.dedup();
    places
}

/// The rows of the table whose head begins with this word, each as its first two cells.
fn table<'a>(page: &'a str, head: &str) -> Vec<(&'a str, &'a str)> {
    let head = format!("| {head} |");
    let lines = page.lines().skip_while(|line| !line.starts_with(&head)).skip(2);
    let rows = lines.map_while(|line| line.strip_prefix("| "));
    rows.filter_map(|row| row.split_once(" | ")).map(with_second).collect()
}

fn with_second<'a>((first, rest): (&'a str, &'a str)) -> (&'a str, &'a str) {
    (first, rest.split(" | ").next().unwrap_or_default())
}

/// README has a row for each group, with its crates and no others.
fn group_faults(groups: &[Group], page: &str) -> Vec<String> {
    let rows = table(page, "group");
    let mut found = Vec::new();
    for group in groups {
        let named: Vec<String> = rows
            .iter()
            .filter(|(title, _)| *title == group.title)
            .flat_map(|(_, crates)| quoted(crates))
            .collect();
        let wanted: Vec<String> = group.crates.iter().map(|known| known.name.clone()).collect();
        if named != wanted {
            found.push(format!(
                "{README} has not the crates of the group \"{}\" as {CRATES} has them: `{}`.",
                group.title,
                wanted.join("` `")
            ));
        }
    }
    for (title, _) in rows.iter().filter(|row| !groups.iter().any(|group| group.title == row.0)) {
        found
            .push(format!("{README} has a row for the group \"{title}\", which {CRATES} has not."));
    }
    found
}

/// CONTRIBUTING has a row for each crate, alone or with others, and for no other.
fn crate_faults(groups: &[Group], page: &str) -> Vec<String> {
    let named: Vec<String> =
        table(page, "crate").into_iter().flat_map(|(names, _)| quoted(names)).collect();
    let crates: Vec<&String> =
        groups.iter().flat_map(|group| &group.crates).map(|known| &known.name).collect();
    let mut found = Vec::new();
    for name in &crates {
        if named.iter().filter(|known| known == name).count() != 1 {
            found.push(format!("{CONTRIBUTING} has not one row for the crate `{name}`."));
        }
    }
    for name in named.iter().filter(|name| !crates.contains(name)) {
        found.push(format!(
            "{CONTRIBUTING} has a row for the crate `{name}`, which {CRATES} has not."
        ));
    }
    found
}
