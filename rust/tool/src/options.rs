//! What is known of options beside the commands' own table: what stands after each, and which name was
//! likely meant by a word that is none.

use crate::command::Command;

/// The options of every command.
pub const COMMON: [&str; 4] = ["-o", "--output", "-h", "--help"];

/// The options that may be there more than once: each time they name one file more.
pub const REPEATED: &[&str] = &["--shelf-script", "--traces"];

/// How many words stand after an option of a command.
pub fn count_after(command: &Command, option: &str) -> usize {
    let own = command.options.iter().find(|(name, _)| *name == option);
    own.map_or(usize::from(matches!(option, "-o" | "--output")), |(_, count)| *count)
}

/// All options of a command.
pub fn of(command: &Command) -> impl Iterator<Item = &str> {
    command.options.iter().map(|(name, _)| *name).chain(COMMON)
}

/// What stands after an option, in words.
pub fn takes(option: &str) -> &'static str {
    match option {
        "--address" => "an address in hex, such as 71",
        "--channels" => "names with commas between them, such as D0,D1,D2,D3",
        "--controller" => "a controller, 0 or 1",
        "--follow" => "a number of seconds",
        "--from" | "--to" => "a number of ticks",
        "--most" => "a count of milliseconds",
        "--order" => "a pattern, such as 000111",
        "--part" => "a part, PCA9641 or TPT29641",
        "--pins" => "the four codes of AD3, AD2, AD1 and AD0",
        "--samplerate" => "samples a second, such as 1M",
        "--sheets" => "the names of the board sheet and the house sheet",
        "--threads" => "a number of at least 1",
        "--traces" => "the name of a trace or of a folder of them",
        "--without-limit" => "a controller, 0 or 1, or the word both",
        "-o" | "--output" => "the name of a file or a folder",
        _ if names_file(option) => "the name of a file",
        _ => "a word",
    }
}

/// True if a file is named after an option that has a word after it.
pub fn names_file(option: &str) -> bool {
    let release = ["--board", "--house", "--start0", "--start1", "--shelf", "--shelf-script"];
    let others = ["-o", "--output", "--sheets", "--totals", "--traces"];
    release.contains(&option) || others.contains(&option)
}

/// The words that can stand after an option, where there are few.
pub fn choices(option: &str) -> &'static [&'static str] {
    match option {
        "--controller" => &["0", "1"],
        "--part" => &["PCA9641", "TPT29641"],
        "--without-limit" => &["0", "1", "both"],
        _ => &[],
    }
}

/// " (did you mean NAME?)", if a name is near enough to a word that is none.
pub fn perhaps<'a>(word: &str, names: impl Iterator<Item = &'a str>) -> String {
    let near = names.map(|name| (distance(word, name), name)).min();
    match near {
        Some((steps, name)) if steps > 0 && 3 * steps <= name.len().max(word.len()) => {
            format!(" (did you mean {name}?)")
        }
        _ => String::new(),
    }
}

/// How many letters have to be put in, taken out, replaced, or swapped with the next one.
fn distance(a: &str, b: &str) -> usize {
    let (a, b): (Vec<char>, Vec<char>) = (a.chars().collect(), b.chars().collect());
    // The distances of all beginnings, of a by b.
    let mut all = vec![vec![0; b.len() + 1]; a.len() + 1];
    for i in 0..=a.len() {
        for j in 0..=b.len() {
            all[i][j] = match (i, j) {
                (0, number) | (number, 0) => number,
                _ => {
                    let replaced = all[i - 1][j - 1] + usize::from(a[i - 1] != b[j - 1]);
                    let nearest = replaced.min(all[i - 1][j] + 1).min(all[i][j - 1] + 1);
                    let swapped = i > 1 && j > 1 && a[i - 1] == b[j - 2] && a[i - 2] == b[j - 1];
                    if swapped {
                        nearest.min(all[i - 2][j - 2] + 1)
                    } else {
                        nearest
                    }
                }
            };
        }
    }
    all[a.len()][b.len()]
}
