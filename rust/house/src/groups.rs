//! `crates.txt`, read: the groups that its comments name, each with its crates and what these stand on.

/// Where the crates are listed.
pub const CRATES: &str = "crates.txt";

pub struct Group {
    /// `Quiet time` of the comment "# Quiet time: many ticks at once."
    pub title: String,
    /// What the comment says after that.
    pub says: String,
    pub crates: Vec<Crate>,
}

pub struct Crate {
    pub name: String,
    /// What it stands on, the kit's own crates among it.
    pub on: Vec<String>,
}

/// The groups in their order. A group is a comment with the lines of crates below it, up to an empty line; so the head of the file is none.
pub fn groups_of(text: &str) -> Vec<Group> {
    text.split("\n\n").filter_map(group_of).collect()
}

fn group_of(block: &str) -> Option<Group> {
    let comment: Vec<&str> = block.lines().filter_map(|line| line.strip_prefix("# ")).collect();
    let crates: Vec<Crate> = block.lines().filter_map(crate_of).collect();
    if crates.is_empty() {
        return None;
    }
    let comment = comment.join(" ");
    let (title, says) = comment.split_once(": ").unwrap_or((&comment, ""));
    Some(Group {
        title: title.trim_end_matches('.').to_string(),
        says: says.trim_end_matches('.').to_string(),
        crates,
    })
}

fn crate_of(line: &str) -> Option<Crate> {
    let (name, on) = line.split_once(':').filter(|_| !line.starts_with('#'))?;
    // `gunwaleish staticlib: ..` says how it is built.
    Some(Crate {
        name: name.split_whitespace().next()?.to_string(),
        on: on.split_whitespace().map(str::to_string).collect(),
    })
}
