//! The subcommands, a file each.

pub mod completion;
pub mod compose;
pub mod convert;
pub mod decompose;
pub mod diff;
pub mod explain;
pub mod fill;
pub mod import;
pub mod list;
pub mod manual;
pub mod orders;
pub mod picture;
pub mod release;
pub mod run;
pub mod share;
pub mod sheet;
pub mod shelf;
pub mod watch;
pub mod wave;

use crate::command::Command;

/// All of them, in the order of the help.
pub const COMMANDS: &[Command] = &[
    release::COMMAND,
    sheet::COMMAND,
    fill::COMMAND,
    orders::COMMAND,
    shelf::COMMAND,
    share::COMMAND,
    list::COMMAND,
    explain::COMMAND,
    diff::COMMAND,
    compose::COMMAND,
    decompose::COMMAND,
    import::COMMAND,
    watch::COMMAND,
    convert::COMMAND,
    wave::COMMAND,
    picture::COMMAND,
    run::COMMAND,
    manual::COMMAND,
    completion::COMMAND,
];
