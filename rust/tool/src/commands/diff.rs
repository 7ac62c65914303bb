//! `diff`: two traces or scripts, and where they differ.

use gunwaleish::{run, write_trace, MOST_TRACE};

use super::compose::MOST_TEXT;
use crate::arguments::Arguments;
use crate::command::{Command, Run};
use crate::diff::{words, Difference, Side};
use crate::each::{output_of, refused, Made};
use crate::failure::Failure;
use crate::files::{self, is_standard, Input};
use crate::hint::{hint, Kind};
use crate::script::read_script;
use crate::story::follow_run;
use crate::wrap;

pub const COMMAND: Command = Command {
    name: "diff",
    summary: "two traces or scripts: where their events differ, and where their answers first do",
    usage: "A B [-o OUT]",
    help: "A and B are a trace or a script each; one of them may be -, standard input. The output says\n\
           whether pins and part differ, and then each place where the events do, with what A and what\n\
           B has there; as many events as can be are taken for the same. Where an event is replaced by\n\
           another one, the two belong together, and so do those that are the same. Of these it says at\n\
           which the answers first differ, in what, and what happened there in A and in B; then how\n\
           each run ends.\n\n\
           Exit code: 0 alike; 1 not alike; 2 wrong use, or a file that cannot be read, or that is\n\
           neither a trace nor a script.",
    options: &[],
    example: "build/release/gunwaleish diff traces/box14-rt50.script traces/box14-rt50.trace",
    run: Run::Alone(compare),
};

fn compare(arguments: &Arguments) -> Result<(), Failure> {
    let [a, b] = arguments.files.as_slice() else {
        let count = arguments.files.len();
        return Err(wrong(&format!("diff needs two files, traces or scripts, and has {count}")));
    };
    if is_standard(a) && is_standard(b) {
        return Err(wrong("standard input cannot be both files"));
    }
    let output = output_of(&arguments.files, "txt", arguments.output.as_deref())?;
    let read = |path| side(&files::read(path, MOST_TEXT)?).map_err(Failure::Wrong);
    let (a, b) = (read(a)?, read(b)?);
    let difference = Difference::between(&a, &b);
    let width = wrap::width(output.as_deref());
    Made::done(words::told(&a, &b, &difference, width)).hand_out(output.as_deref())?;
    match difference.is_none() {
        true => Ok(()),
        false => Err(Failure::NotAlike),
    }
}

fn wrong(what: &str) -> Failure {
    Failure::Wrong(format!("{what}; gunwaleish diff --help tells more"))
}

/// The run of a trace, or of a script, or why it is neither.
pub fn side(input: &Input) -> Result<Side, String> {
    let of = |run| Side { name: input.name.clone(), story: follow_run(run) };
    let refusal = match run(&input.bytes) {
        Ok(run) => return Ok(of(run)),
        Err(refusal) => refusal,
    };
    // A trace begins with the count 4, which is no letter of a script.
    if input.bytes.len() <= MOST_TRACE && input.bytes.first().is_none_or(|&byte| byte == 4) {
        return Err(refused(input, refusal));
    }
    let script = read_script(&input.bytes)
        .map_err(|unread| format!("{}, {unread}{}", input.name, hint(input, Kind::Script)))?;
    let trace = write_trace(script.pins, script.part, &script.events);
    trace
        .and_then(|trace| run(&trace))
        .map(of)
        .map_err(|refusal| format!("{}: {refusal}", input.name))
}
