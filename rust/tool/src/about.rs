//! What the tool says of itself: the help, and the sentences that the manual page has too.

use crate::command::Command;

/// What the tool is.
pub const ABOUT: &str =
    "traces of a PCA9641 or TPT29641 bus arbiter, answered by the proved library";

/// How files are named.
pub const FILES: &str =
    "Without FILE, or with -, standard input is read; orders, shelf and diff need two files, sheet one or\n\
     two; release needs a folder; share and run take folders too, and run and watch write no file. -o names the\n\
     file to write, or a folder that is there; then each output has its input's name. Many files need\n\
     such a folder.\n\
     Controller 0 and controller 1 are document 01's masters 0 and 1.\n\n\
     gunwaleish COMMAND --help, or gunwaleish help COMMAND, tells more, with an example. What stands after\n\
     an option may stand after a sign = too, as in --part=PCA9641. --version gives the version and the\n\
     library's commit.";

/// What the exit code says.
pub const EXIT_CODES: &str =
    "Exit code: 0 done; 1 a trace, script, shelf, capture or order sheet is refused, standard\n\
     error says why and where, or a bundle is not released, or what diff compares is not alike, or a\n\
     watched chip did not answer as the model; 2 wrong use, or a file that cannot be read or written.";

/// What the tool says of itself.
pub fn overview(commands: &[Command]) -> String {
    let mut text = format!(
        "gunwaleish: {ABOUT}\n\nUsage: gunwaleish COMMAND [FILE...] [-o OUT]\n\nCommands:\n"
    );
    for command in commands {
        text.push_str(&format!("  {:<10} {}\n", command.name, command.summary));
    }
    text.push_str(&format!("\n{FILES}\n\n{EXIT_CODES}\n"));
    text
}

/// What the tool says of one command.
pub fn help(command: &Command) -> String {
    format!(
        "gunwaleish {}: {}\n\nUsage: gunwaleish {0} {}\n\n{}\n\nExample, at the repository's root:\n\n    {}\n",
        command.name, command.summary, command.usage, command.help, command.example
    )
}
