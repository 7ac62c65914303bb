//! What a subcommand is: what the tool says of it, and how it is run. `commands` has the table of them.

use crate::arguments::Arguments;
use crate::failure::Failure;

/// A subcommand, and what the tool says of it.
pub struct Command {
    pub name: &'static str,
    pub summary: &'static str,
    pub usage: &'static str,
    pub help: &'static str,
    /// The options besides -o and --help, each with the count of words after it.
    pub options: &'static [(&'static str, usize)],
    /// A command line that works at the repository's root.
    pub example: &'static str,
    pub run: Run,
}

/// How a subcommand is run.
#[derive(Clone, Copy)]
pub enum Run {
    /// By what stands after its name.
    Alone(fn(&Arguments) -> Result<(), Failure>),
    /// By the table of all commands too, of which it tells.
    OfAll(fn(&[Command], &Arguments) -> Result<(), Failure>),
}

impl Command {
    /// Runs it. `commands` is the table that it stands in.
    pub fn run(&self, commands: &[Command], arguments: &Arguments) -> Result<(), Failure> {
        match self.run {
            Run::Alone(run) => run(arguments),
            Run::OfAll(run) => run(commands, arguments),
        }
    }
}

/// What the usage of most commands says after their name.
pub const TRACES: &str = "[TRACE...] [-o OUT]";
