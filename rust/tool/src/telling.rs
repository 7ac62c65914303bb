//! What a person is told on a terminal, without letters that a terminal would obey.

use std::io::{self, Write};

/// A text without control characters, which a terminal would obey: they are escaped.
pub fn shown(text: &str) -> String {
    let escaped = |letter: char| match letter.is_control() {
        true => letter.escape_default().to_string(),
        false => letter.to_string(),
    };
    text.chars().map(escaped).collect()
}

/// Says something on standard error, with the tool's name before each line. Nothing can be done if that
/// fails too.
pub fn complain(text: &str) {
    let lines: String = text.lines().map(|line| format!("gunwaleish: {}\n", shown(line))).collect();
    let _ = io::stderr().write_all(lines.as_bytes());
}
