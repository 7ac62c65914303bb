//! `compose`: a script to a trace.

use gunwaleish::{write_trace, Refusal};

use crate::command::{Command, Run};
use crate::each::{Each, Made, Mistake};
use crate::files::Input;
use crate::hint::{hint, Kind};
use crate::script::{read_script, warnings, Script};

/// A script of the longest trace has far less, even with long comments.
pub const MOST_TEXT: usize = 1 << 24;

pub const COMMAND: Command = Command {
    name: "compose",
    summary: "a script, one event a line, to a trace",
    usage: "[SCRIPT...] [-o OUT]",
    help:
        "A script begins with the codes of AD3 to AD0 and with the part, and has one event a line.\n\
           Bytes are in hex, and may say so: 32, 32h and 0x32 are one byte. 50d is the same in\n\
           decimal, and 50ms too, for a byte of RT. A byte of RT that does not say which it is gets a\n\
           warning with its value in ms. The count of ticks is in decimal, and # begins a comment.\n\n\
           pins 0 0 0 1       # VSS VSS VSS VDD, which is address 71h\n\
           part PCA9641       # or part TPT29641\n\
           command 0 03       # controller 0 opens register 3, RT\n\
           write 0 50ms       # 50 ticks; the same as 32h\n\
           read 0\n\
           stop 0\n\
           pair 01 81         # both write at once\n\
           lines 1 0 1        # SCL, SDA, INT_IN\n\
           tick 50            # fifty of them; tick alone is one\n\
           pulse 0\n\
           reset\n\
           general 0 06\n\
           raw FF 00 00 00    # any four bytes, as they are\n\n\
           The part has no default: a script without one is refused. A TPT29641 differs from a\n\
           PCA9641 in two things: its idle timer ends a grant at 151 idle ticks, not at 101, and its\n\
           write pointer rolls from 7 to 0, where that of a PCA9641 stays at 7.\n\n\
           The script is for one device, so no event has a name; gunwaleish shelf runs a script with\n\
           names over several.\n\n\
           If a line cannot be read, nothing is written.",
    options: &[],
    example: "build/release/gunwaleish compose traces/m1.script | cmp - traces/m1.trace",
    run: Run::Alone(|arguments| {
        let make = |input: &Input| {
            warnings::tell(input);
            compose(input)
        };
        Each { most: MOST_TEXT, ending: "trace", make }.run(arguments)
    }),
};

pub fn compose(input: &Input) -> Made {
    composed(input).map_or_else(|mistake| Made::refused(mistake.why), Made::done)
}

/// The trace of a script, or why there is none.
pub fn composed(input: &Input) -> Result<Vec<u8>, Mistake> {
    composed_of(input).map(|(_, trace)| trace)
}

/// The same with the script that was read.
pub fn composed_of(input: &Input) -> Result<(Script, Vec<u8>), Mistake> {
    let name = &input.name;
    if input.bytes.len() > MOST_TEXT {
        let why = format!("{name}: the script is longer than 16 MiB");
        return Err(Mistake { why, line: None });
    }
    let script = read_script(&input.bytes).map_err(|unread| {
        let why = format!("{name}, {unread}{}", hint(input, Kind::Script));
        Mistake { why, line: Some(unread.line) }
    })?;
    let trace = write_trace(script.pins, script.part, &script.events).map_err(|refusal| {
        let line = place(&script, refusal);
        let place = line.map_or(String::new(), |line| format!(", line {line}"));
        Mistake { why: format!("{name}{place}: {refusal}"), line }
    })?;
    Ok((script, trace))
}

/// The line that the library's refusal is about.
fn place(script: &Script, refusal: Refusal) -> Option<usize> {
    match refusal {
        Refusal::NoSuchStrapping => Some(script.pins_line),
        Refusal::TooManyEvents => script.overflow_line,
        _ => None,
    }
}
