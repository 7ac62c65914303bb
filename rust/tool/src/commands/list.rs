//! `list`: the listing, as the Rattle program prints it.

use crate::command::{Command, Run, TRACES};
use crate::each::{each_trace, refused, Made};
use crate::files::Input;

pub const COMMAND: Command = Command {
    name: "list",
    summary: "the address and the count, then one answer a line, in hex",
    usage: TRACES,
    help:
        "The same text as the program `listing` of crates/listing prints. Of a refused trace it\n\
           is R and the number.",
    options: &[],
    example: "build/release/gunwaleish list traces/m1.trace",
    run: Run::Alone(|arguments| each_trace(arguments, "listing", list)),
};

pub fn list(input: &Input) -> Made {
    let output = gunwaleish::listing(&input.bytes).into_bytes();
    let refusal = gunwaleish::run(&input.bytes).err();
    Made { output: Some(output), refused: refusal.map(|refusal| refused(input, refusal)) }
}
