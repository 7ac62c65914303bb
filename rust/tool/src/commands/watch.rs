//! `watch`: a real bus, with the model beside the chip.

use std::path::{Path, PathBuf};
use std::time::Duration;

use gunwaleish::{Master, MOST_TRACE};

use crate::arguments::Arguments;
use crate::command::{Command, Run};
use crate::device::read_device;
use crate::failure::Failure;
use crate::files::{self, name_of};
use crate::release::bench::promised;
use crate::samples::{read_all, read_path, tell_crowded, Said};
use crate::sheet::Pair;
use crate::table::Form;
use crate::telling::complain;
use crate::watch::following::Following;
use crate::watch::rows::{row, COLUMNS};
use crate::watch::status::Status;
use crate::watch::{summary, words, Found, State, Told, Wanted, Watching};

pub const COMMAND: Command = Command {
    name: "watch",
    summary: "a live bus or a capture, with the model beside the chip",
    usage: "[CAPTURE...] (--address HEX | --pins AD3 AD2 AD1 AD0) --part NAME\n       \
            [--samplerate RATE] [--channels NAMES] [--below] [--sheets BOARD HOUSE] [--resync]\n       \
            [--follow SECONDS] [--csv | --json]",
    help: "Takes the samples of both upstream buses as they come, from an analyser through standard input,\n\
           or from files, of any length. A capture is raw, VCD, CSV with a header of names, or a session of\n\
           sigrok, as gunwaleish import takes it. --samplerate says how many samples a second there are, as\n\
           in 1M; raw samples need it, VCD and sigrok's files say it themselves. So many samples as a\n\
           millisecond has are one TICK. With --below, bits 4, 5 and 6 of raw samples are the downstream\n\
           SCL, SDA and INT_IN; a file with these names has them so.\n\n\
           Every byte that the chip gives is held against the model's answer, and what differs is told as\n\
           it comes: time, sample, controller, register, what was heard and expected, and the bits by name.\n\
           A READ whose byte the model answered while it was on the bus was overtaken by another event, and\n\
           is told apart. After a difference the model goes on as it is; with --resync it takes what a READ\n\
           of CONTR, STATUS or INT_STATUS shows, as far as that decides its state, and says what it took.\n\n\
           At the end stand the READs, differences and faults, and how long each controller waited. With\n\
           --sheets a wait above what the two order sheets promise is told at once. On a terminal a line\n\
           goes on with the time, events, owner, waits and differences. With --follow a file that grows is\n\
           read on until nothing was added to it for so many seconds. --csv and --json print a row for each\n\
           thing that is told (docs/FORMATS.md), and the summary on standard error.\n\n\
           Exit code: 0 if all READs were answered as the model answers; 1 if one was not, if a wait was\n\
           above the promise, or if no READ was heard. docs/CAPTURES.md tells what that proves.",
    options: &[
        ("--address", 1),
        ("--pins", 4),
        ("--part", 1),
        ("--samplerate", 1),
        ("--channels", 1),
        ("--below", 0),
        ("--sheets", 2),
        ("--resync", 0),
        ("--follow", 1),
        ("--csv", 0),
        ("--json", 0),
    ],
    example: "build/release/gunwaleish watch traces/take-over.capture --address 71 --part PCA9641 \
              --samplerate 400k --below",
    run: Run::Alone(run),
};

fn wrong(what: &str) -> Failure {
    Failure::Wrong(format!("{what}; gunwaleish watch --help tells more"))
}

fn run(arguments: &Arguments) -> Result<(), Failure> {
    if arguments.output.is_some() {
        return Err(wrong("watch writes no file: what it tells goes to standard output"));
    }
    let has = |name| arguments.options.contains_key(name);
    let wanted = Wanted {
        device: read_device(COMMAND.name, arguments)?,
        below: has("--below"),
        resync: has("--resync"),
        promised: promised_by(arguments)?,
    };
    let said = Said::read(COMMAND.name, arguments)?;
    let form = Form::asked(COMMAND.name, arguments)?;
    let patience = patience(arguments)?;
    let standard = [PathBuf::from("-")];
    let paths = if arguments.files.is_empty() { &standard[..] } else { &arguments.files };
    if let Some(form) = form {
        files::print(&form.head(COLUMNS))?;
    }
    let mut code = 0;
    for path in paths {
        match one(path, wanted, &said, form, patience) {
            Ok(true) => {}
            Ok(false) => code = code.max(1),
            Err(Failure::Closed) => return Err(Failure::Closed),
            Err(failure) if paths.len() == 1 => return Err(failure),
            Err(failure) => {
                failure.say();
                code = code.max(failure.code());
            }
        }
    }
    match code {
        0 => Ok(()),
        code => Err(Failure::OfMany { refused: code == 1 }),
    }
}

/// The waits that the sheets after --sheets promise.
fn promised_by(arguments: &Arguments) -> Result<[Option<u64>; 2], Failure> {
    let Some([board, house]) = arguments.paths.get("--sheets").map(Vec::as_slice) else {
        return Ok([None; 2]);
    };
    let read = |path: &Path| files::read(path, MOST_TRACE);
    let (board, house) = (read(board)?, read(house)?);
    let refused = |why: String| {
        Failure::Refused(format!(
            "{}, {}: {why}; gunwaleish sheet tells more",
            board.name, house.name
        ))
    };
    let pair = Pair::read(&board.bytes, &house.bytes).map_err(|why| refused(why.to_string()))?;
    if pair.empty().next().is_some() {
        return Err(refused("a box is empty on both, so they promise nothing".to_string()));
    }
    let promised = Master::BOTH.map(|master| promised(&pair, master));
    for master in Master::BOTH.into_iter().filter(|master| promised[*master as usize].is_none()) {
        complain(&format!(
            "the sheets promise controller {master} no wait behind a live holder; gunwaleish sheet tells why"
        ));
    }
    Ok(promised)
}

fn patience(arguments: &Arguments) -> Result<Option<Duration>, Failure> {
    let Some(word) = arguments.options.get("--follow").and_then(|words| words.first()) else {
        return Ok(None);
    };
    let seconds = word.parse::<u32>().ok();
    let none = || wrong(&format!("'{}' is no number of seconds", word.escape_debug()));
    seconds.map(|seconds| Some(Duration::from_secs(seconds.into()))).ok_or_else(none)
}

/// Watches one capture. Gives whether all is as it should be.
fn one(
    path: &Path,
    wanted: Wanted,
    said: &Said,
    form: Option<Form>,
    patience: Option<Duration>,
) -> Result<bool, Failure> {
    let name = name_of(path);
    let mut teller = Teller { name: name.clone(), form, status: Status::default() };
    let mut watching = Watching::new(&name, wanted, &mut teller);
    let read = match patience {
        Some(patience) if !files::is_standard(path) => {
            let unread = |error| Failure::Wrong(format!("{name} cannot be read: {error}"));
            read_all(Following::open(path, patience).map_err(unread)?, &name, said, &mut watching)
        }
        _ => read_path(path, said, &mut watching),
    };
    let state = watching.state.take();
    teller.status.clear();
    let crowded = read?;
    let Some(state) = state else { return Ok(false) };
    tell_crowded(&name, crowded);
    let summary = summary::told(&name, &state);
    match form {
        Some(_) => complain(&summary),
        None => files::print(&summary)?,
    }
    Ok(!state.is_wrong() && state.watch.reads() > 0)
}

/// Tells what is found on standard output, and goes on on standard error.
struct Teller {
    name: String,
    form: Option<Form>,
    status: Status,
}

impl Told for Teller {
    fn found(&mut self, found: &Found) -> Result<(), Failure> {
        self.status.clear();
        match self.form {
            Some(form) => files::print(&form.row(COLUMNS, &row(&self.name, found))),
            None => files::print(&format!("{}\n", words::line(found))),
        }
    }

    fn goes_on(&mut self, state: &State) -> Result<(), Failure> {
        self.status.goes_on(state);
        Ok(())
    }
}
