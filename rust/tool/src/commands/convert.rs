//! `convert`: an old trace, which names no part, to a new one.

use gunwaleish::{convert_trace, Refusal};

use crate::command::{Command, Run, TRACES};
use crate::each::{each_trace, end_of_events, seen_at, Made};
use crate::files::Input;
use crate::hint::{hint, Kind};

pub const COMMAND: Command = Command {
    name: "convert",
    summary: "an old trace, which names no part, to one for a PCA9641",
    usage: TRACES,
    help: "Traces did not always name their part: an old one ends after its events. It is refused\n\
           everywhere else, since a kind left out and read as a default is how the incident came\n\
           about. Here it is written with the two bytes 01 00 added, which name the PCA9641. What is\n\
           no old trace is refused, a new trace among it. Make sure that the part was a PCA9641; for a\n\
           TPT29641, decompose what comes out, change its line part, and compose it again.",
    options: &[],
    example: "head -c -2 traces/m1.trace | build/release/gunwaleish convert | \
              cmp - traces/m1.trace",
    run: Run::Alone(|arguments| each_trace(arguments, "trace", convert)),
};

pub fn convert(input: &Input) -> Made {
    match convert_trace(&input.bytes) {
        Ok(trace) => Made::done(trace),
        Err(refusal) => Made::refused(refused(input, refusal)),
    }
}

/// Why it is no old trace: number, words, and the byte where it was seen.
fn refused(input: &Input, refusal: Refusal) -> String {
    let place = match refusal {
        Refusal::BytesAfterEnd => end_of_events(&input.bytes),
        _ => seen_at(&input.bytes, refusal),
    };
    let new = match gunwaleish::run(&input.bytes) {
        Ok(run) => format!("; it is a new trace, and names its part: {}", run.part),
        Err(_) => String::new(),
    };
    let hint = hint(input, Kind::Trace);
    format!("{}: {refusal} (seen at byte {place}{new}){hint}", input.name)
}
