//! `fill`: the text form of an order sheet to the sheet.

use crate::arguments::Arguments;
use crate::command::{Command, Run};
use crate::each::{self, Each, Made};
use crate::failure::Failure;
use crate::files::Input;
use crate::form::{boxes_of, read, sheet_of, Mistake};
use crate::hint::{hint, Kind};

/// The six lines of a text have far less, even with long comments.
pub const MOST_TEXT: usize = 1 << 16;

/// How many typing errors of one text are told.
const MOST_TOLD: usize = 10;

pub const COMMAND: Command = Command {
    name: "fill",
    summary: "an order sheet from its text, one line a box",
    usage: "[TEXT...] [-o OUT]",
    help: "The text has one line for each box, as the form has it, in any order. # begins a comment.\n\n\
           Downstream reserve, ms, controller 0: 50\n\
           Downstream reserve, ms, controller 1: without limit\n\
           Priority, controller 0: 0       # without priority; 1 is with\n\
           Priority, controller 1: empty   # no order: left to the other sheet\n\
           Idle timer, controller 0: 0     # off\n\
           Idle timer, controller 1: 1     # on\n\n\
           A reserve is 1 to 255, a number of ms in decimal, or without limit; a bare 0 is refused, since\n\
           a 0 that nobody meant is how the incident came about. An empty box has its line too: a line\n\
           that is missing is refused and never taken for an empty box.\n\n\
           The output is the sheet, 15 bytes, for gunwaleish sheet, which also turns it back into text.\n\
           It is no text, and is not written to a terminal.\n\n\
           Exit code: 0 done; 1 the text is refused: standard error has each typing error with its line\n\
           and word, and nothing is written; 2 wrong use, or a file that cannot be read or written.",
    options: &[],
    example: "build/release/gunwaleish fill sheets/board.txt | cmp - sheets/board.sheet",
    run: Run::Alone(run),
};

fn run(arguments: &Arguments) -> Result<(), Failure> {
    Each { most: MOST_TEXT, ending: "sheet", make: fill }.run(arguments)
}

pub fn fill(input: &Input) -> Made {
    filled(input).map_or_else(|mistake| Made::refused(mistake.why), Made::done)
}

/// The sheet of a text, or why there is none, with the line of the first typing error.
pub fn filled(input: &Input) -> Result<Vec<u8>, each::Mistake> {
    let name = &input.name;
    let hint = || hint(input, Kind::SheetText);
    let none = |why| Err(each::Mistake { why, line: None });
    if input.bytes.len() > MOST_TEXT {
        let hint = hint();
        return none(format!("{name}: it is longer than 64 KiB, and a sheet has six lines{hint}"));
    }
    if boxes_of(&input.bytes).is_ok() {
        return none(format!(
            "{name}: it is a sheet already, and no text; gunwaleish sheet shows it as text"
        ));
    }
    read(&input.bytes).map(|boxes| sheet_of(boxes).to_vec()).map_err(|mistakes| each::Mistake {
        why: refused(name, &mistakes) + &hint(),
        line: mistakes.iter().find_map(|mistake| mistake.line),
    })
}

/// A line for each typing error, or for the first ones.
fn refused(name: &str, mistakes: &[Mistake]) -> String {
    let told = mistakes.iter().take(MOST_TOLD).map(|mistake| mistake.told(name));
    let more = mistakes.len().saturating_sub(MOST_TOLD);
    let more = (more > 0).then(|| format!("{name}: and {more} more"));
    told.chain(more).collect::<Vec<_>>().join("\n")
}
