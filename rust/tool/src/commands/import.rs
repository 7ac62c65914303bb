//! `import`: a logic analyser's capture to a trace, or to its script.

use std::path::Path;

use gunwaleish::{import_capture, write_trace, Event, Refusal, MOST_SAMPLES};

use crate::arguments::Arguments;
use crate::command::{Command, Run};
use crate::cut::cuts;
use crate::device::{read_device, Device};
use crate::each::{EachFile, Made};
use crate::failure::Failure;
use crate::files::{name_of, Input};
use crate::hint::{hint_of, Kind};
use crate::samples::rate::samples_of_tick;
use crate::samples::timed::timed;
use crate::samples::{read_path, tell_crowded, Said, Taken};
use crate::script::write_script;
use crate::seen::Seen;
use crate::telling::complain;

pub const COMMAND: Command = Command {
    name: "import",
    summary: "a logic analyser's capture to a trace",
    usage: "[CAPTURE...] (--address HEX | --pins AD3 AD2 AD1 AD0) --part NAME\n       \
            [--channels NAMES] [--samplerate RATE] [--below] [--script] [--empty] [-o OUT]",
    help: "A capture is raw, one byte a sample, whose bits 0 to 3 are SCL0, SDA0, SCL1 and SDA1, the\n\
           buses of controllers 0 and 1; or VCD, or CSV with a header of names, whose lines have these\n\
           names, or those that --channels gives in this order, with commas between them; or a session\n\
           of sigrok, if sigrok-cli is installed. Which it is, is seen from its bytes. It may be of any\n\
           length, if no more than 32,768 of its samples change one of the lines.\n\n\
           The transfers to the device, which is named by its seven-bit\n\
           address or by the codes of its pins, become COMMAND, WRITE, READ and STOP, and general\n\
           calls become GENERAL CALL. The part that is fitted, PCA9641 or TPT29641, is named too; it\n\
           has no default. docs/CAPTURES.md tells more, and how a capture is exported.\n\n\
           A capture has no ticks: with --samplerate, as in 1M, so many samples as a millisecond has are\n\
           one TICK, and lines of the bus below become LINES, if a file with names has them, or with\n\
           --below bits 4, 5 and 6 of raw samples, SCL, SDA and INT_IN. With --script the output is a\n\
           script, which may have more events than a trace, and to which tick and lines can be added by\n\
           hand before gunwaleish compose makes a trace of it.\n\n\
           Standard error has what was seen: the samples, the transfers of each bus, how often each\n\
           address, what was skipped, and how many events came of it. Without any event nothing is\n\
           written and the exit code is 1, unless --empty says that this is meant.",
    options: &[
        ("--address", 1),
        ("--pins", 4),
        ("--part", 1),
        ("--channels", 1),
        ("--samplerate", 1),
        ("--below", 0),
        ("--script", 0),
        ("--empty", 0),
    ],
    example: "build/release/gunwaleish import traces/box14.capture --address 71 --part PCA9641 | \
              build/release/gunwaleish explain",
    run: Run::Alone(run),
};

/// What is to be made of a capture.
#[derive(Clone, Copy, Debug, PartialEq, Eq)]
pub struct Wanted {
    pub device: Device,
    /// A script, and not a trace.
    pub script: bool,
    /// Also if there is no event.
    pub empty: bool,
}

fn run(arguments: &Arguments) -> Result<(), Failure> {
    let has = |name| arguments.options.contains_key(name);
    let device = read_device(COMMAND.name, arguments)?;
    let wanted = Wanted { device, script: has("--script"), empty: has("--empty") };
    let ending = if wanted.script { "script" } else { "trace" };
    let said = Said::read(COMMAND.name, arguments)?;
    let every = said.rate.map(samples_of_tick).transpose();
    let every = every.map_err(|uneven| Failure::Wrong(uneven.to_string()))?;
    if every.is_none() && has("--below") {
        return Err(Failure::Wrong(
            "--below puts LINES between TICKs, and needs --samplerate; gunwaleish import --help tells more"
                .to_string(),
        ));
    }
    let make = |path: &Path| {
        let mut taken = Taken::new(has("--below"));
        tell_crowded(&name_of(path), read_path(path, &said, &mut taken)?);
        let (made, summary) = import_taken(&name_of(path), &taken, wanted, every);
        summary.iter().for_each(|line| complain(line));
        Ok(made)
    };
    EachFile { ending, make }.run(arguments)
}

/// What is made of a capture with one byte a sample, and what was seen in it, if it is imported.
pub fn import(input: &Input, wanted: Wanted) -> (Made, Option<String>) {
    let (count, places) = (input.bytes.len() as u64, &|sample: usize| sample as u64);
    Capture { name: &input.name, start: &input.bytes, samples: &input.bytes, count, places }
        .import(wanted, Ok)
}

/// The same of a capture of any form and length, with a TICK after so many samples each, if that is said.
pub fn import_taken(
    name: &str,
    taken: &Taken,
    wanted: Wanted,
    every: Option<u32>,
) -> (Made, Option<String>) {
    let (samples, start, count) = (taken.samples(), taken.start(), taken.count);
    let with_time = |events: Vec<Event>| match every {
        Some(every) => timed(taken, &events, wanted.device, every),
        None => Ok(events),
    };
    Capture { name, start, samples, count, places: &|sample| taken.place(sample) }
        .import(wanted, with_time)
}

/// The samples that the library is given, and what is told of them.
struct Capture<'a> {
    name: &'a str,
    /// How the file begins, if it may be something else.
    start: &'a [u8],
    samples: &'a [u8],
    /// How many there are in the file, and where each of those stands there.
    count: u64,
    places: &'a dyn Fn(usize) -> u64,
}

impl Capture<'_> {
    fn import(
        &self,
        wanted: Wanted,
        with_time: impl Fn(Vec<Event>) -> Result<Vec<Event>, Refusal>,
    ) -> (Made, Option<String>) {
        let Device { address, pins, part } = wanted.device;
        let events = match import_capture(self.samples, address) {
            Ok(events) => events,
            Err(refusal) => return (self.refused(address, refusal), None),
        };
        let seen = Seen { samples: self.count as usize, ..Seen::of(self.samples) };
        if events.is_empty() && !wanted.empty {
            return (self.none(address, &seen), None);
        }
        let events = match with_time(events) {
            Ok(events) => events,
            Err(refusal) => return (self.refused(address, refusal), None),
        };
        let made = match wanted.script {
            true => Made::done(write_script(pins, part, &events)),
            false => match write_trace(pins, part, &events) {
                Ok(trace) => Made::done(trace),
                Err(refusal) => return (self.refused(address, refusal), None),
            },
        };
        (made, Some(format!("{}: {}", self.name, seen.summary(address, events.len()))))
    }

    fn hint(&self) -> String {
        match self.start {
            [] if self.count > 0 => String::new(),
            start => hint_of(self.name, start, Kind::Capture),
        }
    }

    /// That no event came of it, and what was seen in it.
    fn none(&self, address: u8, seen: &Seen) -> Made {
        let (name, why, hint) = (self.name, seen.why_none(address), self.hint());
        Made::refused(format!("{name}: {why}{hint}; --empty writes it all the same"))
    }

    /// Why it is refused: number, words, and for 12 what was seen where.
    fn refused(&self, address: u8, refusal: Refusal) -> Made {
        let seen: Vec<String> = match refusal {
            Refusal::ByteCut => {
                let cuts = cuts(self.samples, address).into_iter();
                cuts.map(|cut| cut.at(self.places).to_string()).collect()
            }
            Refusal::TooManySamples => vec![format!(
                "{} samples, of which more than {MOST_SAMPLES} change a line; take a part of it, or let \
                 gunwaleish watch listen to it",
                self.count
            )],
            Refusal::TooManyEvents => vec!["--script writes as many as there are".to_string()],
            _ => vec![],
        };
        let place = if seen.is_empty() { String::new() } else { format!(" ({})", seen.join("; ")) };
        Made::refused(format!("{}: {refusal}{place}{}", self.name, self.hint()))
    }
}
