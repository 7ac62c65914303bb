//! The manual page, made from the table of commands that the help is made from. `man` shows it.

use crate::about::{ABOUT, EXIT_CODES, FILES};
use crate::command::Command;
use crate::options::{takes, COMMON};
use crate::version::TOOL;

/// The whole page of these commands, in the macros of man(7).
pub fn page(commands: &[Command]) -> String {
    let mut text = format!(
        ".TH GUNWALEISH 1 \"\" \"{TOOL}\" \"User Commands\"\n\
         .SH NAME\ngunwaleish \\- {}\n\
         .SH SYNOPSIS\n.nf\ngunwaleish COMMAND [FILE...] [\\-o OUT]\ngunwaleish help COMMAND\n.fi\n\
         .SH DESCRIPTION\n{}.SH COMMANDS\n",
        escaped(ABOUT),
        paragraphs(FILES)
    );
    commands.iter().for_each(|command| text.push_str(&section(command)));
    text.push_str(&format!(
        ".SH OPTIONS OF ALL COMMANDS\n{}.SH EXIT STATUS\n{}",
        COMMON.map(|name| option(name, matches!(name, "-o" | "--output"))).concat(),
        paragraphs(EXIT_CODES)
    ));
    text
}

fn section(command: &Command) -> String {
    let mut text = format!(
        ".SS {}\n{}\n.PP\n.nf\ngunwaleish {0} {}\n.fi\n{}",
        escaped(command.name),
        escaped(&sentence(command.summary)),
        escaped(command.usage),
        paragraphs(command.help)
    );
    command.options.iter().for_each(|(name, count)| text.push_str(&option(name, *count > 0)));
    text.push_str(&format!(
        ".PP\nAt the repository's root:\n.PP\n.nf\n{}\n.fi\n",
        escaped(command.example)
    ));
    text
}

/// An option, and what stands after it.
fn option(name: &str, has_value: bool) -> String {
    let after = match has_value {
        true => escaped(&sentence(&format!("followed by {}", takes(name)))),
        false => "Stands alone.".to_string(),
    };
    format!(".TP\n.B {}\n{after}\n", escaped(name))
}

fn sentence(text: &str) -> String {
    let (first, rest) = text.split_at(text.chars().next().map_or(0, char::len_utf8));
    format!("{}{rest}.", first.to_uppercase())
}

/// Paragraphs of text. One that stands in columns keeps its lines.
fn paragraphs(text: &str) -> String {
    let one = |paragraph: &str| match paragraph.lines().any(|line| line.trim().contains("  ")) {
        true => format!(".PP\n.nf\n{}\n.fi\n", escaped(paragraph)),
        false => format!(".PP\n{}\n", escaped(paragraph)),
    };
    text.split("\n\n").map(one).collect()
}

/// Text as it may stand in a manual page: a line that begins with a point is no macro there.
fn escaped(text: &str) -> String {
    let text = text.replace('\\', "\\e").replace('-', "\\-");
    let line = |line: &str| match line.starts_with(['.', '\'']) {
        true => format!("\\&{line}"),
        false => line.to_string(),
    };
    text.lines().map(|one| line(one.trim_end())).collect::<Vec<_>>().join("\n")
}
