//! Holds the pages to what they name: every link, and every path between backquotes, leads somewhere in the repository.
//!
//! A path is looked for at the root, under `crates/`, beside the page, in the folders of the paths that its line names before it, and at last as
//! the end of any path, since a page that speaks of a crate says `specs/Answers.antt`. A file of definitions may be named without its ending, with its
//! folder or after it. Commands are left out: tools/try-pages runs those.

use crate::tables::quoted;
use crate::tree::Tree;

/// How files end that a page may name. Others, such as the totals of a share, are made by whoever uses it.
const KEPT: [&str; 19] = [
    "md", "rs", "rt", "antt", "edit", "py", "txt", "toml", "h", "c", "svg", "png", "html", "mjs",
    "trace", "script", "listing", "capture", "sheet",
];

/// What is made by a build, or by who uses it.
const MADE: [&str; 2] = ["build", "target"];

/// What stands elsewhere: the papers, what is installed, the kit's own, and fields of a record that look like files.
const ELSEWHERE: [&str; 8] = [
    "port.py",
    "01-scope.md",
    "02-change-requests.md",
    "include/gunwaleish.h",
    "share/gunwaleish/",
    "share/doc/gunwaleish/",
    "side0.rt",
    "side1.rt",
];

/// What pages name that is not there, a sentence each.
pub fn link_faults(tree: &Tree) -> Vec<String> {
    let mut found = Vec::new();
    for page in tree.paths("", ".md") {
        let text = tree.text(page).unwrap_or_default();
        for (at, line) in prose_of(text) {
            let targets = targets_in(line);
            let lost = targets.iter().filter(|target| !is_reached(tree, page, target));
            found.extend(
                lost.map(|link| format!("{page}, line {at}: the link to {link} leads nowhere.")),
            );
            let lost = lost_paths(tree, page, line).into_iter().chain(lost_definitions(tree, line));
            found.extend(lost.map(|path| format!("{page}, line {at}: there is no `{path}`.")));
        }
    }
    found
}

/// The lines of a page with their numbers, but for its commands and what these print.
fn prose_of(text: &str) -> Vec<(usize, &str)> {
    let mut is_fenced = false;
    let mut found = Vec::new();
    for (at, line) in text.lines().enumerate() {
        if line.trim_start().starts_with("```") {
            is_fenced = !is_fenced;
        } else if !is_fenced && !line.starts_with("    ") {
            found.push((at + 1, line));
        }
    }
    found
}

/// The targets of the links of a line, `[words](target)`, that lie in the repository.
fn targets_in(line: &str) -> Vec<&str> {
    let targets = line.split("](").skip(1).filter_map(|rest| rest.split_once(')'));
    targets.map(|(target, _)| target).filter(|target| !target.contains("://")).collect()
}

/// True of a link to a file or folder, or to a section of a page.
fn is_reached(tree: &Tree, page: &str, target: &str) -> bool {
    let (path, section) = target.split_once('#').unwrap_or((target, ""));
    let place =
        if path.is_empty() { Some(page.to_string()) } else { joined(folder_of(page), path) };
    place.is_some_and(|place| {
        let text = tree.text(&place).unwrap_or_default();
        let titles = text.lines().filter_map(|line| line.strip_prefix('#'));
        let is_section = |title: &str| anchor_of(title.trim_start_matches('#')) == section;
        tree.has(&place) && (section.is_empty() || titles.into_iter().any(is_section))
    })
}

/// `how-long` of the title "How long?".
fn anchor_of(title: &str) -> String {
    let kept = title.trim().chars().filter(|c| c.is_alphanumeric() || " -_".contains(*c));
    kept.flat_map(char::to_lowercase).map(|c| if c == ' ' { '-' } else { c }).collect()
}

/// The paths of a line that are nowhere.
fn lost_paths(tree: &Tree, page: &str, line: &str) -> Vec<String> {
    let mut folders = vec![String::new(), "crates".to_string(), folder_of(page).to_string()];
    let mut lost = Vec::new();
    for name in quoted(line).into_iter().filter(|name| is_path(tree, name)) {
        let places = folders.iter().filter_map(|folder| joined(folder, &name));
        match places.into_iter().find(|place| tree.has(place)) {
            Some(place) => folders.extend(folders_of(&place)),
            None if is_end(tree, &name) => {}
            None => lost.push(name),
        }
    }
    lost
}

/// The files of definitions of a line that are nowhere: each in `sheets/specs/Sheets`, and in "`sheets/specs/`: `Sheets`, `Waits`", up to a semicolon.
fn lost_definitions(tree: &Tree, line: &str) -> Vec<String> {
    let mut lost = Vec::new();
    for part in line.split("; ") {
        let mut folder = "";
        let names = quoted(part);
        for name in &names {
            let file = match name.split_once("/specs/") {
                Some((_, "")) if part.contains(&format!("`{name}`: ")) => {
                    folder = name;
                    continue;
                }
                Some((krate, file)) if is_word(file) && !krate.contains('/') => name.clone(),
                None if !folder.is_empty() && is_word(name) => format!("{folder}{name}"),
                _ => continue,
            };
            if !tree.has(&format!("crates/{file}.antt")) {
                lost.push(file);
            }
        }
    }
    lost
}

/// True of a name as files of definitions have them: letters and digits, the first of them a capital one. `X` stands for any.
fn is_word(name: &str) -> bool {
    name.len() > 1
        && name.starts_with(|c: char| c.is_ascii_uppercase())
        && name.chars().all(|c| c.is_ascii_alphanumeric())
}

/// True of a name that looks like a path of the repository: it ends as a file that is kept or a folder, or it begins as one at the root.
fn is_path(tree: &Tree, name: &str) -> bool {
    let is_plain = |c: char| c.is_ascii_alphanumeric() || "_-+./".contains(c);
    let first = name.split('/').next().unwrap_or_default();
    let last = name.rsplit('/').next().unwrap_or_default();
    let is_file = last.rsplit_once('.').is_some_and(|(a, b)| !a.is_empty() && KEPT.contains(&b));
    // `sheets/BoardFirst` is a statement of a crate, and `traces/count_invented` an edit.
    let at_root = name.contains('/') && tree.has(first) && !tree.has(&format!("crates/{first}"));
    name.chars().all(is_plain)
        && !first.is_empty()
        && (is_file || name.ends_with('/') || at_root)
        && !MADE.contains(&first)
        && !ELSEWHERE.contains(&name)
        && !has_placeholder(name)
}

/// True of `crates/X/specs/` and `NAME_command.rs`, where the reader puts a name. Pages have their names in capitals too.
fn has_placeholder(name: &str) -> bool {
    let is_blank = |word: &str| !word.is_empty() && word.chars().all(|c| c.is_ascii_uppercase());
    let is_kept = name.ends_with(".md") || name == "VERSION";
    !is_kept && name.split(['/', '.', '_']).any(is_blank)
}

/// True if some path ends so, or some folder.
fn is_end(tree: &Tree, name: &str) -> bool {
    let (file, folder) = (format!("/{name}"), format!("/{}/", name.trim_end_matches('/')));
    tree.names().any(|path| path.ends_with(&file) || path.contains(&folder))
}

/// `docs` of `docs/IMAGE.md`.
fn folder_of(path: &str) -> &str {
    path.rsplit_once('/').map_or("", |(folder, _)| folder)
}

/// A path and all folders that it lies in.
fn folders_of(path: &str) -> Vec<String> {
    let ends = path.char_indices().filter(|(_, c)| *c == '/').map(|(at, _)| at);
    ends.map(|at| path[..at].to_string()).chain([path.to_string()]).collect()
}

/// A path from a folder on, without `..`, if it stays in the repository.
fn joined(folder: &str, path: &str) -> Option<String> {
    let mut parts: Vec<&str> = folder.split('/').filter(|part| !part.is_empty()).collect();
    for part in path.split('/').filter(|part| !part.is_empty() && *part != ".") {
        if part == ".." {
            parts.pop()?;
        } else {
            parts.push(part);
        }
    }
    Some(parts.join("/"))
}
