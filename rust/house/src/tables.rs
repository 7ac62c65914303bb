//! What stands in the cells of a page's table.

/// What stands between backquotes.
pub fn quoted(cell: &str) -> Vec<String> {
    cell.split('`').skip(1).step_by(2).map(str::to_string).collect()
}

/// The names and files in "`a` and `b`, `file`; `c`, `file`".
pub fn definitions_in(cell: &str) -> Vec<(String, String)> {
    let mut found = Vec::new();
    for part in cell.split("; ") {
        let names = quoted(part);
        if let Some((file, names)) = names.split_last() {
            found.extend(names.iter().map(|name| (name.clone(), file.clone())));
        }
    }
    found
}

/// The cells of a line that is a row of a table.
pub fn cells_of(line: &str) -> Option<Vec<&str>> {
    let inside = line.strip_prefix("| ")?.strip_suffix(" |")?;
    Some(inside.split(" | ").collect())
}
