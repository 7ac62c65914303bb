//! `decompose`: a trace to its script.

use crate::command::{Command, Run, TRACES};
use crate::each::{each_trace, refused, Made};
use crate::files::Input;
use crate::script::write_script;

pub const COMMAND: Command = Command {
    name: "decompose",
    summary: "a trace to its script",
    usage: TRACES,
    help:
        "Composing the script gives the same bytes again. gunwaleish compose --help has the words.",
    options: &[],
    example: "build/release/gunwaleish decompose traces/box14-rt50.trace",
    run: Run::Alone(|arguments| each_trace(arguments, "script", decompose)),
};

pub fn decompose(input: &Input) -> Made {
    match gunwaleish::run(&input.bytes) {
        Err(refusal) => Made::refused(refused(input, refusal)),
        Ok(run) => Made::done(write_script(run.pins, run.part, &run.events)),
    }
}
