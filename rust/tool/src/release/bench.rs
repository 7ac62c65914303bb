//! The bench: the traces, and the scripts that are run over the shelf, each by its proved totals.

use gunwaleish::{write_trace, Master, Pins, Refusal, Totals, Wait};

use super::{Bench, Bundle, Rank, Read, Reason, ShelfRead, Spot};
use crate::commands::compose::MOST_TEXT;
use crate::each;
use crate::files::Input;
use crate::hint::Kind;
use crate::script::named::{read_named, Named};
use crate::sheet::Pair;
use crate::shelf::file::{self, read_shelf};
use crate::shelf::{run_over, words, Shelved, Slot};
use crate::story::{Step, Story};
use crate::words::{count, outcome};

/// What the bench gives: each trace and each place of the shelf, and what is refused.
#[derive(Default)]
pub struct Benches {
    pub bench: Vec<Bench>,
    pub reasons: Vec<Reason>,
}

/// Looks at all of it, beside what the pair of sheets promises, if it promises anything.
pub fn all(bundle: &Bundle, pair: Option<&Pair>) -> Benches {
    let mut all = Benches::default();
    for read in &bundle.traces {
        all.add_trace(read);
    }
    if let Some(shelf) = &bundle.shelf {
        all.add_shelf(shelf);
    }
    let promised = Master::BOTH.map(|m| pair.and_then(|pair| promised(pair, m)));
    let Benches { bench, reasons } = &mut all;
    for bench in bench {
        bench.longer = longer(bench, promised);
        let waiting = Master::BOTH.into_iter().filter(|&m| bench.longer[m as usize]);
        reasons
            .extend(waiting.filter_map(|m| waits_longer(bundle, bench, m, promised[m as usize])));
    }
    all
}

/// How long a controller waits at most by what is ordered for its partner, where that is promised behind
/// a live one.
pub fn promised(pair: &Pair, controller: Master) -> Option<u64> {
    let waiting = pair.waits.iter().find(|waiting| waiting.controller == controller)?;
    match waiting.on[0].1 {
        Wait::Live { ticks } => Some(ticks.into()),
        Wait::Silent { .. } | Wait::Unbounded => None,
    }
}

fn longer(bench: &Bench, promised: [Option<u64>; 2]) -> [bool; 2] {
    let longest = |m: Master| bench.totals.as_ref().map_or(0, |totals| totals.longest(m));
    Master::BOTH.map(|m| promised[m as usize].is_some_and(|most| longest(m) > most))
}

fn waits_longer(
    bundle: &Bundle,
    bench: &Bench,
    m: Master,
    promised: Option<u64>,
) -> Option<Reason> {
    let (promised, totals) = (promised?, bench.totals.ok()?);
    let spot = bench.spot.map(|spot| format!("{spot}, "));
    let how = match &bundle.shelf {
        Some(read) if bench.spot.is_some() => {
            format!("gunwaleish shelf {} {}", read.shelf.name, bench.file)
        }
        _ => format!("gunwaleish explain {}", bench.file),
    };
    Some(Reason {
        rank: Rank::WaitsLonger,
        file: bench.file.clone(),
        place: Some(format!("{}controller {m}", spot.unwrap_or_default())),
        what: format!(
            "Controller {m} waits {} ms there, and the sheets promise it {promised} ms at most.",
            totals.longest(m)
        ),
        mend: format!(
            "Something there is not as the promise asks: another reserve than ordered, a late STOP, a bus that is not idle, a port not at rest, \
             or a reset. This tells which: {how}"
        ),
    })
}

impl Benches {
    fn add_trace(&mut self, read: &Read) {
        let totals = totals(&read.bytes);
        if let Err(refusal) = totals {
            self.reasons.push(refused_trace(read, refusal));
        }
        self.bench.push(Bench {
            file: read.name.clone(),
            spot: None,
            part: gunwaleish::run(&read.bytes).ok().map(|run| run.part),
            totals,
            trace: read.bytes.clone(),
            longer: [false; 2],
        });
    }

    fn add_shelf(&mut self, shelf: &ShelfRead) {
        let slots = match slots_of(&shelf.shelf) {
            Ok(slots) => slots,
            Err(reason) => return self.reasons.push(reason),
        };
        for script in &shelf.scripts {
            match run_script(&slots, script) {
                Ok(shelved) => self.add_script(script, &shelved),
                Err(reason) => self.reasons.push(reason),
            }
        }
    }

    fn add_script(&mut self, script: &Read, shelved: &Shelved) {
        self.reasons.extend(refused_events(script, shelved));
        let places = shelved.slots.iter().zip(&shelved.stories).enumerate();
        self.bench
            .extend(places.map(|(place, (slot, story))| at_place(script, place, slot, story)));
    }
}

/// What one script does at one place: the events that reached it, as a trace of their own.
fn at_place(script: &Read, place: usize, slot: &Slot, story: &Story) -> Bench {
    let events: Vec<_> = story.steps.iter().map(|step| step.event).collect();
    let trace = write_trace(Pins::default(), slot.part, &events);
    let totals = trace.as_ref().map_err(|&refusal| refusal).and_then(|trace| totals(trace));
    Bench {
        file: script.name.clone(),
        spot: Some(Spot { place, address: slot.address }),
        part: Some(slot.part),
        totals,
        trace: trace.unwrap_or_default(),
        longer: [false; 2],
    }
}

fn totals(trace: &[u8]) -> Result<Totals, Refusal> {
    let mut totals = Totals::new();
    totals.add(trace).map(|()| totals)
}

fn reason(rank: Rank, file: &str, place: Option<String>, what: String, mend: &str) -> Reason {
    Reason { rank, file: file.to_string(), place, what, mend: mend.to_string() }
}

fn refused_trace(read: &Read, refusal: Refusal) -> Reason {
    let input = Input { name: read.name.clone(), bytes: read.bytes.clone() };
    let place = format!("byte {}", each::seen_at(&read.bytes, refusal));
    let what = each::refused(&input, refusal);
    let what = what.strip_prefix(&format!("{}: ", read.name)).unwrap_or(&what);
    let mend =
        "Record the run again, or take the file out of the release; nothing of it was counted.";
    reason(Rank::FileRefused, &read.name, Some(place), format!("It is no trace: {what}."), mend)
}

const A_SHELF: &str =
    "A shelf has a line a device, 1 to 16 of them, with an address of its own and the part.";
const A_SCRIPT: &str =
    "Mend the line; gunwaleish shelf --help has the words of a script for a shelf.";

/// The devices of the shelf, or why it is none.
fn slots_of(read: &Read) -> Result<Vec<Slot>, Reason> {
    let refused = |place: Option<usize>, what: String| {
        let place = place.map(|line| format!("line {line}"));
        reason(Rank::FileRefused, &read.name, place, what, A_SHELF)
    };
    if read.bytes.len() > MOST_TEXT {
        return Err(refused(None, "The file is longer than 16 MiB.".to_string()));
    }
    let (slots, last) = read_shelf(&read.bytes).map_err(|unread| {
        let hint = read.hint(Kind::Shelf);
        refused(Some(unread.line), format!("It cannot be read: {}{hint}.", unread.why()))
    })?;
    // An empty script shows whether the row is one.
    match run_over(slots.clone(), &[]) {
        Ok(_) => Ok(slots),
        Err(refusal) => {
            let (line, why) = file::seen_at(&slots, last, refusal);
            Err(refused(line, format!("It is no shelf: {why}.")))
        }
    }
}

fn run_script(slots: &[Slot], read: &Read) -> Result<Shelved, Reason> {
    let refused = |place, what| reason(Rank::FileRefused, &read.name, place, what, A_SCRIPT);
    if read.bytes.len() > MOST_TEXT {
        return Err(refused(None, "The file is longer than 16 MiB.".to_string()));
    }
    let events = read_named(&read.bytes).map_err(|unread| {
        let (place, hint) = (format!("line {}", unread.line), read.hint(Kind::ShelfScript));
        refused(Some(place), format!("It cannot be read: {}{hint}.", unread.why()))
    })?;
    run_over(slots.to_vec(), &events)
        .map_err(|refusal| refused(None, format!("It is refused: {refusal}.")))
}

/// That events of a script are refused, by the shelf or by a device of it, with the first one.
fn refused_events(script: &Read, shelved: &Shelved) -> Option<Reason> {
    let by_shelf = shelved.refused().map(|(number, named)| (number, words::why(named)));
    let mut all: Vec<(usize, String)> = by_shelf.chain(refused_by_devices(shelved)).collect();
    all.sort();
    all.dedup_by_key(|(number, _)| *number);
    let (number, why) = all.first()?.clone();
    let (named, _): &(Named, _) = shelved.answered.get(number - 1)?;
    let more = match all.len() - 1 {
        0 => String::new(),
        others => format!(", and {} more", count(others, "event")),
    };
    Some(reason(
        Rank::EventRefused,
        &script.name,
        Some(format!("line {}, event {number}", named.line)),
        format!("'{named}': {why}{more}."),
        "Mend the event, or take it out: a refused one changes nothing, so the script does not do what it says.",
    ))
}

/// The events that a device refuses, by their numbers in the script.
fn refused_by_devices(shelved: &Shelved) -> impl Iterator<Item = (usize, String)> + '_ {
    let places = shelved.slots.iter().zip(&shelved.stories).enumerate();
    places.flat_map(|(place, (slot, story))| {
        let refused = story.steps.iter().filter(|step| step.answer.outcome.is_refused());
        refused.map(move |step: &Step| {
            let why = outcome(step.answer.outcome);
            let spot = Spot { place, address: slot.address };
            (step.number, format!("{spot}: {why}"))
        })
    })
}
