//! `sheet`: one order sheet as text; what two of them order, in words, or their events as a trace.

use std::path::Path;

use gunwaleish::{sheet_events, write_trace, Master, Refusal, Sheet, MOST_TRACE, SHEET_EVENTS};

use crate::arguments::Arguments;
use crate::command::{Command, Run};
use crate::device::{read_device, Device};
use crate::each::{output_of, Each, Made};
use crate::failure::Failure;
use crate::files::{self, is_standard, Input};
use crate::form;
use crate::hint::{hint, Kind};
use crate::script::write_script;
use crate::sheet::{faults, words, Pair};

pub const COMMAND: Command = Command {
    name: "sheet",
    summary: "what two order sheets order, in words, or as a trace; or one sheet as text",
    usage: "SHEET [-o OUT]\n       \
            gunwaleish sheet BOARD HOUSE [(--address HEX | --pins AD3 AD2 AD1 AD0) --part NAME\n       \
            [--script [--controller N]]] [-o OUT]",
    help: "A sheet has 15 bytes; docs/SHEETS.md has their layout, and gunwaleish fill makes one of a text\n\
           that people write. Of one SHEET the output is that text, a line for each box and what can be\n\
           filled in; fill makes the same sheet of it again.\n\n\
           BOARD and HOUSE are the two sheets of a bundle. The output says of each box what is ordered\n\
           and from which sheet: the board sheet's if it is ticked there, else the house sheet's. A box\n\
           that is ticked on neither is empty and never becomes a value: all empty boxes are named, and\n\
           the pair is refused with 14. A ticked reserve of 0 is an order, without limit. Of a complete\n\
           pair it says how long each controller can wait for the bus, on either part, and of a priority\n\
           or an idle timer ticked 1 which CONTR byte keeps it when the controller connects. It warns of\n\
           a wait without a bound, which is grade 3, or with one behind a silent controller alone, grade\n\
           2, and names the box to mend.\n\n\
           With a device, named by its address or the codes of its pins and by its part, PCA9641 or\n\
           TPT29641, the output is not the words but a trace: the twelve events that start the shelf.\n\
           They fit a fresh device. With --script it is their script, to which tick and lines are\n\
           added by hand before gunwaleish compose makes a trace of it; with --controller 0 or 1 it is\n\
           that controller's six events alone, for gunwaleish orders. Nothing of a pair that is\n\
           refused is written.\n\n\
           Exit code: 0 the pair is complete, or the one sheet is a sheet, which judges no pair; 1 a box\n\
           is empty, or a sheet is no sheet: standard error says which, and at which byte; 2 wrong use,\n\
           or a file that cannot be read or written.",
    options: &[("--address", 1), ("--pins", 4), ("--part", 1), ("--script", 0), ("--controller", 1)],
    example: "build/release/gunwaleish sheet sheets/board.sheet sheets/house.sheet",
    run: Run::Alone(run),
};

/// What is to be made of the two sheets.
#[derive(Clone, Copy, Debug, PartialEq, Eq)]
pub enum Wanted {
    Words,
    Trace(Device),
    Script(Device),
    /// The script of one controller.
    ScriptOf(Device, Master),
}

impl Wanted {
    /// The ending of its name in a folder. The words of a pair do not take the place of the board
    /// sheet's text there.
    fn ending(self) -> &'static str {
        match self {
            Wanted::Words => "order.txt",
            Wanted::Trace(_) => "trace",
            Wanted::Script(_) | Wanted::ScriptOf(..) => "script",
        }
    }
}

fn run(arguments: &Arguments) -> Result<(), Failure> {
    let two = "two files, the board sheet and then the house sheet";
    match (arguments.files.as_slice(), arguments.options.keys().next()) {
        ([_], None) => Each { most: MOST_TRACE, ending: "txt", make: one }.run(arguments),
        ([board, house], _) => pair(board, house, arguments),
        ([_], Some(option)) => Err(wrong(&format!("with {option} sheet needs {two}, and has 1"))),
        (files, _) => {
            Err(wrong(&format!("sheet needs one file, or {two}, and has {}", files.len())))
        }
    }
}

/// One sheet as text.
pub fn one(input: &Input) -> Made {
    match form::boxes_of(&input.bytes) {
        Ok(boxes) => Made::done(form::write(boxes)),
        Err(refusal) => {
            let why = faults::with_places(&input.bytes, refusal);
            Made::refused(format!("{}: {why}{}", input.name, hint(input, Kind::Sheet)))
        }
    }
}

fn pair(board: &Path, house: &Path, arguments: &Arguments) -> Result<(), Failure> {
    if is_standard(board) && is_standard(house) {
        return Err(wrong("standard input cannot be both sheets"));
    }
    let wanted = wanted(arguments)?;
    let output = output_of(&arguments.files, wanted.ending(), arguments.output.as_deref())?;
    // More than a sheet has, by which another file is known.
    let read = |path| files::read(path, MOST_TRACE);
    sheet(&read(board)?, &read(house)?, wanted).hand_out(output.as_deref())
}

fn wanted(arguments: &Arguments) -> Result<Wanted, Failure> {
    if arguments.options.is_empty() {
        return Ok(Wanted::Words);
    }
    let device = read_device(COMMAND.name, arguments)?;
    let controller = arguments.options.get("--controller").map(Vec::as_slice).unwrap_or_default();
    match (arguments.options.contains_key("--script"), controller) {
        (false, []) => Ok(Wanted::Trace(device)),
        (false, _) => Err(wrong("--controller needs --script")),
        (true, []) => Ok(Wanted::Script(device)),
        (true, [word, ..]) => {
            let named = Master::BOTH.into_iter().find(|master| master.to_string() == *word);
            let unknown = || format!("'{}' is no controller, 0 or 1", word.escape_debug());
            Ok(Wanted::ScriptOf(device, named.ok_or_else(|| wrong(&unknown()))?))
        }
    }
}

fn wrong(what: &str) -> Failure {
    Failure::Wrong(format!("{what}; gunwaleish sheet --help tells more"))
}

pub fn sheet(board: &Input, house: &Input, wanted: Wanted) -> Made {
    let events = match sheet_events(&board.bytes, &house.bytes) {
        Ok(events) => events,
        Err(refusal) => {
            let words = || order_in_words(board, house);
            let output = (wanted == Wanted::Words).then(words).flatten();
            return Made { output, refused: Some(refused(board, house, refusal)) };
        }
    };
    match wanted {
        Wanted::Words => Made { output: order_in_words(board, house), refused: None },
        Wanted::Script(to) => Made::done(write_script(to.pins, to.part, &events)),
        Wanted::ScriptOf(to, master) => {
            // Controller 0's come first.
            let (first, second) = events.split_at(SHEET_EVENTS / 2);
            let own = if master == Master::Zero { first } else { second };
            Made::done(write_script(to.pins, to.part, own))
        }
        Wanted::Trace(to) => match write_trace(to.pins, to.part, &events) {
            Ok(trace) => Made::done(trace),
            Err(refusal) => Made::refused(refused(board, house, refusal)),
        },
    }
}

/// What both sheets order, also if boxes are empty. Of what is no sheet there is nothing to say.
fn order_in_words(board: &Input, house: &Input) -> Option<Vec<u8>> {
    let pair = Pair::read(&board.bytes, &house.bytes).ok()?;
    let (board, house) = (&board.name, &house.name);
    let told = words::told(&pair);
    Some(format!("board sheet: {board}\nhouse sheet: {house}\n\n{told}").into())
}

/// Why a pair of sheets is refused: number and words, and the empty boxes by their names, or what is
/// wrong at which byte of which sheet.
fn refused(board: &Input, house: &Input, refusal: Refusal) -> String {
    if let (Refusal::EmptyBox, Ok(pair)) = (refusal, Pair::read(&board.bytes, &house.bytes)) {
        let empty: Vec<String> = pair.empty().map(words::empty).collect();
        return format!("{}, {}: {refusal} ({})", board.name, house.name, empty.join("; "));
    }
    let sheets = [(board, Sheet::Board), (house, Sheet::House)];
    let told = sheets.into_iter().filter_map(|(input, which)| {
        let fault = faults::fault(&input.bytes, which)?;
        let said = faults::in_words(&input.name, which, &input.bytes, fault);
        Some(said + &hint(input, Kind::Sheet))
    });
    let told: Vec<String> = told.collect();
    match told.is_empty() {
        true => format!("{}, {}: {refusal}", board.name, house.name),
        false => told.join("; and "),
    }
}
