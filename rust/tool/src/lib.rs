//! The tool that people run, `gunwaleish`, as a library. Every answer comes from the proved library; what is here is words and pictures.
//!
//! | what | where |
//! |---|---|
//! | the subcommands, a file each, and what one is | [`commands`], [`command`] |
//! | the help, the manual page and the completions, made from the table of commands | [`about`], [`manual`], [`completion`], [`version`] |
//! | the way from the command line to the files and back | [`command_line`], [`arguments`], [`options`], [`device`], [`files`], [`walk`], [`each`] |
//! | why a command stops, and what a person is told | [`failure`], [`telling`] |
//! | a run, event by event: what changed, its totals, and why one still waits at its end | [`story`], [`words`], [`summary`], [`stuck`] |
//! | two runs, and where they part | [`diff`] |
//! | order sheets: what two of them order, and the text of one | [`sheet`], [`form`] |
//! | two start-up scripts in all their orders | [`startup`] |
//! | a shelf of several devices, and what happens at each place | [`shelf`] |
//! | many traces: run on all cores, and how the bus was shared in them | [`many`], [`share`] |
//! | one verdict over a release folder | [`release`], [`sha256`] |
//! | captures in all their forms, and what is seen in them | [`samples`], [`seen`], [`cut`] |
//! | a bus that is listened to, with the model beside the chip | [`watch`] |
//! | scripts, read and written | [`script`] |
//! | pictures | [`picture`], [`svg`] |
//! | lines that stay short, and rows for other programs | [`columns`], [`wrap`], [`table`], [`json`] |
//! | what a file is that was given in the place of another | [`hint`] |
//!
//! What a command makes of bytes can be had without its command line:
//!
//! ```
//! use gunwaleish_tool::commands::compose::compose;
//! use gunwaleish_tool::files::Input;
//!
//! let script = b"pins 0 0 0 1\npart PCA9641\ncommand 0 01\n".to_vec();
//! let made = compose(&Input { name: "a.script".to_string(), bytes: script });
//! assert_eq!(made.output.unwrap(), [4, 0, 0, 0, 1, 1, 0, 0, 0, 1, 0, 1, 0]);
//!
//! let made = compose(&Input { name: "a.script".to_string(), bytes: b"pins 0 0 0".to_vec() });
//! assert!(made.refused.unwrap().starts_with("a.script, line 1: the line ends, expected "));
//! ```

pub mod about;
pub mod arguments;
pub mod columns;
pub mod command;
pub mod command_line;
pub mod commands;
pub mod completion;
pub mod cut;
pub mod device;
pub mod diff;
pub mod each;
pub mod failure;
pub mod files;
pub mod form;
pub mod hint;
pub mod json;
pub mod manual;
pub mod many;
pub mod options;
pub mod picture;
pub mod release;
pub mod samples;
pub mod script;
pub mod seen;
pub mod sha256;
pub mod share;
pub mod sheet;
pub mod shelf;
pub mod startup;
pub mod story;
pub mod stuck;
pub mod summary;
pub mod svg;
pub mod table;
pub mod telling;
pub mod version;
pub mod walk;
pub mod watch;
pub mod words;
pub mod wrap;

use std::ffi::OsString;
use std::process::ExitCode;

use command_line::Asked;
use commands::COMMANDS;
use failure::Failure;

/// Runs the tool with these arguments and gives its exit code.
pub fn main(arguments: Vec<OsString>) -> ExitCode {
    match run(arguments) {
        Ok(()) => ExitCode::SUCCESS,
        Err(failure) => failure.tell(),
    }
}

fn run(arguments: Vec<OsString>) -> Result<(), Failure> {
    match command_line::read(COMMANDS, arguments)? {
        Asked::Help => files::print(&about::overview(COMMANDS)),
        Asked::Version => files::print(&version::text()),
        Asked::HelpFor(command) => files::print(&about::help(command)),
        Asked::Run(command, arguments) => command.run(COMMANDS, &arguments),
    }
}
