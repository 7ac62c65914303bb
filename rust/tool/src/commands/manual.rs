//! `manual`: the manual page.

use crate::arguments::Arguments;
use crate::command::{Command, Run};
use crate::each::{output_of, Made};
use crate::failure::Failure;
use crate::manual::page;

pub const COMMAND: Command = Command {
    name: "manual",
    summary: "the manual page, gunwaleish.1, with the help of all commands",
    usage: "[-o OUT]",
    help: "It is written for man: with -o build/gunwaleish.1 it is shown by man build/gunwaleish.1, and in a\n\
           folder man1 of the MANPATH by man gunwaleish.",
    options: &[],
    example: "build/release/gunwaleish manual -o build/gunwaleish.1",
    run: Run::OfAll(run),
};

fn run(commands: &[Command], arguments: &Arguments) -> Result<(), Failure> {
    if let [file, ..] = arguments.files.as_slice() {
        let what = format!("manual reads no file, and has {}", crate::files::name_of(file));
        return Err(Failure::Wrong(format!("{what}; gunwaleish manual --help tells more")));
    }
    // In a folder it has the name under which man looks for it.
    let inputs = ["gunwaleish.1".into()];
    let output = output_of(&inputs, "1", arguments.output.as_deref())?;
    Made::done(page(commands)).hand_out(output.as_deref())
}
