//! `shelf`: a script run over a shelf of several devices.

use super::compose::MOST_TEXT;
use crate::arguments::Arguments;
use crate::command::{Command, Run};
use crate::each::{output_of, Made};
use crate::failure::Failure;
use crate::files::{self, is_standard, Input};
use crate::hint::{hint, Kind};
use crate::script::named::{read_named, Named};
use crate::script::{warnings, Unread};
use crate::shelf::file::{self, read_shelf};
use crate::shelf::{rows, run_over, words, Shelved};
use crate::table::Form;
use crate::telling::complain;
use crate::words::count;

pub const COMMAND: Command = Command {
    name: "shelf",
    summary: "a script run over a shelf of several devices, told device by device",
    usage: "SHELF SCRIPT [--list] [--csv | --json] [-o OUT]",
    help: "A shelf file has a line a device, up to 16, in the order of their places from 0: the address in\n\
           hex and the part. A script is as gunwaleish compose reads it, but without pins and part,\n\
           and an event for one device has a name before it:\n\n\
           at 71 command 0 03     # by its address: command, write, read, stop, pair\n\
           place 2 lines 1 0 1    # by its place: lines, pulse\n\
           tick 50                # tick, reset and general reach all devices\n\
           at 71 raw 00 00 08 00  # raw by its first byte\n\n\
           The output says how each device stands at the end, and then for each, as gunwaleish explain\n\
           does, what happens there. An event has its number in the script, of which a device shows\n\
           those that reach it. --list has each event on a line instead, after its four answer bytes\n\
           in hex, which are those of the device that it names, or of place 0. --csv and --json have a\n\
           row a place, how it stands at the end, or with --list a row an event; docs/FORMATS.md has the\n\
           columns.\n\n\
           An event whose address or place is not in the row reaches nobody, and the run goes on\n\
           (refusal 18). No device (5), more than 16 (6) or two with the same address (17) are no\n\
           shelf, and nothing is run.\n\n\
           Exit code: 0 done; 1 the shelf, the script or an event of it is refused, by the shelf or by a\n\
           device: standard error says which, where and why; 2 wrong use, or a file that cannot be read\n\
           or written.",
    options: &[("--list", 0), ("--csv", 0), ("--json", 0)],
    example: "build/release/gunwaleish shelf traces/shelf/chassis.shelf traces/shelf/hang.script",
    run: Run::Alone(run),
};

fn run(arguments: &Arguments) -> Result<(), Failure> {
    let [shelf, script] = arguments.files.as_slice() else {
        let count = arguments.files.len();
        let what = format!("shelf needs two files, the shelf and then the script, and has {count}");
        return Err(wrong(&what));
    };
    if is_standard(shelf) && is_standard(script) {
        return Err(wrong("standard input cannot be both the shelf and the script"));
    }
    let list = arguments.options.contains_key("--list");
    let wanted = Wanted { list, form: Form::asked(COMMAND.name, arguments)? };
    // In a folder the output has the script's name, since one shelf serves many scripts.
    let inputs = [script.clone(), shelf.clone()];
    let output = output_of(&inputs, wanted.ending(), arguments.output.as_deref())?;
    let read = |path| files::read(path, MOST_TEXT);
    let (made, warned) = told_over(&read(shelf)?, &read(script)?, wanted);
    warned.iter().for_each(|line| complain(line));
    made.hand_out(output.as_deref())
}

/// What is to be made of a run over a shelf.
#[derive(Clone, Copy, Debug, PartialEq, Eq)]
pub struct Wanted {
    /// Each event, and not how each place stands at the end.
    pub list: bool,
    /// As rows for other programs.
    pub form: Option<Form>,
}

impl Wanted {
    /// In words.
    pub const WORDS: Wanted = Wanted { list: false, form: None };
    /// Each event on a line.
    pub const LIST: Wanted = Wanted { list: true, form: None };

    /// The ending of its name in a folder.
    fn ending(self) -> &'static str {
        match (self.form, self.list) {
            (Some(form), _) => form.ending(),
            (None, true) => "listing",
            (None, false) => "txt",
        }
    }
}

fn wrong(what: &str) -> Failure {
    Failure::Wrong(format!("{what}; gunwaleish shelf --help tells more"))
}

/// The script run over the shelf, as it is wanted. Events that the shelf or a device refuses are told as
/// a refusal too.
pub fn over(shelf: &Input, script: &Input, wanted: Wanted) -> Made {
    told_over(shelf, script, wanted).0
}

/// The same, and what is worth a second look in the script.
fn told_over(shelf: &Input, script: &Input, wanted: Wanted) -> (Made, Vec<String>) {
    let shelved = match run_both(shelf, script) {
        Ok(shelved) => shelved,
        Err(why) => return (Made::refused(why), vec![]),
    };
    let text = match (wanted.form, wanted.list) {
        (None, true) => words::listed(&shelved),
        (None, false) => words::told([&shelf.name, &script.name], &shelved),
        (Some(form), true) => rows::events(&shelved, form),
        (Some(form), false) => rows::places(&shelved, form),
    };
    let made = Made { output: Some(text.into()), refused: refused(&script.name, &shelved) };
    (made, warnings::of_shelved(script, &shelved))
}

/// The run of the script over the shelf, or why there is none.
pub fn run_both(shelf: &Input, script: &Input) -> Result<Shelved, String> {
    for input in [shelf, script] {
        if input.bytes.len() > MOST_TEXT {
            return Err(format!("{}: the file is longer than 16 MiB", input.name));
        }
    }
    let unread = |input: &Input, wanted: Kind, unread: Unread| {
        format!("{}, {unread}{}", input.name, hint(input, wanted))
    };
    let (slots, last) = read_shelf(&shelf.bytes).map_err(|why| unread(shelf, Kind::Shelf, why))?;
    let events = read_named(&script.bytes).map_err(|why| unread(script, Kind::ShelfScript, why))?;
    run_over(slots.clone(), &events)
        .map_err(|refusal| format!("{}, {}", shelf.name, file::refused(&slots, last, refusal)))
}

/// The first event that the shelf or a device refused, and how many more there are.
pub fn refused(name: &str, shelved: &Shelved) -> Option<String> {
    let by_shelf = shelved.refused().map(|(number, named)| (number, named, words::why(named)));
    let by_devices = shelved.refused_by_devices();
    let by_devices =
        by_devices.map(|(number, named, at)| (number, named, words::why_at(shelved, &at)));
    let mut refused: Vec<(usize, &Named, String)> = by_shelf.chain(by_devices).collect();
    refused.sort_by_key(|(number, ..)| *number);
    let (number, named, why) = refused.first()?;
    let more = match refused.len() - 1 {
        0 => String::new(),
        others => format!(" (and {} more)", count(others, "event")),
    };
    Some(format!("{name}, line {}, event {number}: {why}{more}", named.line))
}
