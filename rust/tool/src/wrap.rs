//! Lines that are no longer than they should be: as wide as the terminal, and elsewhere 160.

use std::fs::File;
use std::io::{self, IsTerminal};
use std::path::Path;
use std::process::{Command, Stdio};

/// Where there is no terminal.
pub const WIDTH: usize = 160;
/// A terminal that is narrower breaks the lines itself.
const LEAST: usize = 80;

/// How wide the lines of this output may be; `None` is standard output.
pub fn width(output: Option<&Path>) -> usize {
    let shown = output.is_none() && io::stdout().is_terminal();
    shown.then(terminal).flatten().map_or(WIDTH, |width| width.max(LEAST))
}

/// The columns of the terminal: as the environment says, or as the terminal itself does.
fn terminal() -> Option<usize> {
    let named = std::env::var("COLUMNS").ok().and_then(|word| word.parse().ok());
    named.or_else(asked).filter(|&width| width > 0)
}

/// `stty size` says the rows and the columns of the terminal that it reads from.
fn asked() -> Option<usize> {
    let terminal = File::open("/dev/tty").ok()?;
    let said =
        Command::new("stty").arg("size").stdin(terminal).stderr(Stdio::null()).output().ok()?;
    String::from_utf8(said.stdout).ok()?.split_whitespace().nth(1)?.parse().ok()
}

/// A text in lines of at most so many letters, broken at spaces, and inside a word only if that by itself
/// is longer. There is always one line.
pub fn wrapped(text: &str, width: usize) -> Vec<String> {
    let width = width.max(1);
    let mut lines = vec![];
    let mut line = String::new();
    let mut length = 0;
    for word in text.split(' ').flat_map(|word| cut(word, width)) {
        let letters = word.chars().count();
        let fits = length + 1 + letters <= width;
        match (length, fits) {
            (0, _) => {}
            (_, true) => {
                line.push(' ');
                length += 1;
            }
            (_, false) => {
                lines.push(std::mem::take(&mut line));
                length = 0;
            }
        }
        line.push_str(&word);
        length += letters;
    }
    lines.push(line);
    lines
}

/// A word in pieces that fit.
fn cut(word: &str, width: usize) -> Vec<String> {
    let letters: Vec<char> = word.chars().collect();
    match letters.len() <= width {
        true => vec![word.to_string()],
        false => letters.chunks(width).map(|piece| piece.iter().collect()).collect(),
    }
}

/// Lines of a text that end in a line break each; all but the first are set in.
pub fn paragraph(text: &str, width: usize) -> String {
    let set_in = 4;
    let mut lines = wrapped(text, width);
    if lines.len() > 1 {
        let first = lines.remove(0);
        let rest = text.strip_prefix(first.as_str()).unwrap_or_default().trim_start();
        lines = wrapped(rest, width - set_in);
        lines = lines.into_iter().map(|line| " ".repeat(set_in) + &line).collect();
        lines.insert(0, first);
    }
    lines.join("\n") + "\n"
}
