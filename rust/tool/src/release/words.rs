//! A verdict in words, as a terminal shows it.

use gunwaleish::{Master, Totals, Wait};

use super::{bench, orders, Allowed, Bench, Bundle, Examined, Read, Reason};
use crate::share::words::table;
use crate::share::Counted;
use crate::sheet::{waits, words, Pair, Waiting};
use crate::words::count;

/// The whole text: what was found, what is ordered and promised, what the bench shows, and the verdict.
pub fn told(examined: &Examined) -> String {
    let mut parts = vec![head(&examined.bundle), ordered(examined)];
    parts.extend(
        examined
            .orders
            .as_ref()
            .map(|tried| format!("Start-up scripts: {}.\n", orders::told(tried))),
    );
    parts.extend(benches(examined));
    parts.push(verdict_and_reasons(examined));
    parts.retain(|part| !part.is_empty());
    parts.join("\n")
}

fn head(bundle: &Bundle) -> String {
    let of = bundle.folder.as_ref().map_or(String::new(), |folder| format!(" of {folder}"));
    format!("Release{of}\n\n{}", lines(&found(bundle)))
}

fn lines(all: &[String]) -> String {
    all.iter().map(|line| format!("{line}\n")).collect()
}

/// What was found and what was not, a line each.
pub fn found(bundle: &Bundle) -> Vec<String> {
    let sheet = |which: &str, read: &Read, text: &Option<Read>| {
        let text =
            text.as_ref().map_or(String::new(), |text| format!(", and its text {}", text.name));
        format!("found      {which} sheet: {}{text}", read.name)
    };
    let [of_board, of_house] = &bundle.texts;
    let mut all =
        vec![sheet("board", &bundle.board, of_board), sheet("house", &bundle.house, of_house)];
    all.push(match &bundle.scripts {
        Some([first, second]) => {
            format!("found      start-up scripts: {} and {}", first.name, second.name)
        }
        None => "not found  start-up scripts (start0.script and start1.script): their orders are not tried".to_string(),
    });
    all.push(match &bundle.shelf {
        Some(read) if read.scripts.is_empty() => {
            format!("found      shelf: {}, and no script for it", read.shelf.name)
        }
        Some(read) => {
            let names: Vec<&str> = read.scripts.iter().map(|script| script.name.as_str()).collect();
            format!("found      shelf: {}, run by {}", read.shelf.name, names.join(", "))
        }
        None => "not found  a shelf (NAME.shelf, here or in shelf/): no script is run over one"
            .to_string(),
    });
    all.push(traces(&bundle.traces));
    all.extend(not_read(&bundle.others));
    all
}

fn traces(reads: &[Read]) -> String {
    let names: Vec<&str> = reads.iter().map(|read| read.name.as_str()).collect();
    match names.is_empty() {
        true => "not found  traces (NAME.trace, here or in any folder inside): no wait of the bench is looked at".to_string(),
        false => format!("found      {}: {}", count(names.len(), "trace"), some_of(&names)),
    }
}

fn not_read(others: &[String]) -> Option<String> {
    let names: Vec<&str> = others.iter().map(String::as_str).collect();
    (!names.is_empty()).then(|| format!("not read   {}", some_of(&names)))
}

/// The most names that are told of many.
const MOST_NAMES: usize = 8;

fn some_of(names: &[&str]) -> String {
    let first = names[..names.len().min(MOST_NAMES)].join(", ");
    match names.len().saturating_sub(MOST_NAMES) {
        0 => first,
        more => format!("{first} and {more} more"),
    }
}

/// The boxes, and how long each controller can wait.
fn ordered(examined: &Examined) -> String {
    let Ok(pair) = &examined.pair else {
        return String::new();
    };
    let mut all = vec![];
    if !pair.waits.is_empty() {
        all.push(
            "\nHow long each can wait for the bus after the start, at every handover:".to_string(),
        );
        all.extend(pair.waits.iter().map(waits::in_words));
        all.extend(waits::are_bounded(pair).then(|| waits::HOLDS.to_string()));
    }
    format!("{}{}", words::boxes(pair), lines(&all))
}

/// What the bench shows: the share of the traces, and the longest waits at each place of the shelf.
fn benches(examined: &Examined) -> Vec<String> {
    let mut parts = vec![];
    if !examined.bundle.traces.is_empty() {
        let head = "On the bench the bus was shared so, in ticks of 1 ms:\n";
        parts.push(format!("{head}{}\n{}", share(examined), lines(&longest_traces(examined))));
    }
    let places: Vec<String> =
        examined.bench.iter().filter(|bench| bench.spot.is_some()).map(longest).collect();
    if !places.is_empty() {
        let head = "On the shelf, the longest waits in ticks of 1 ms:\n";
        parts.push(format!("{head}{}", lines(&places)));
    }
    parts.extend(not_judged(examined));
    parts
}

/// The share of all traces, as `gunwaleish share --table` has it.
fn share(examined: &Examined) -> String {
    let mut counted = Counted::default();
    let names: Vec<&Bench> = examined.bench.iter().filter(|bench| bench.spot.is_none()).collect();
    for (place, bench) in names.iter().enumerate() {
        match counted.totals.add(&bench.trace) {
            Ok(()) => {}
            Err(gunwaleish::Refusal::TooManyTraces) => counted.past += 1,
            Err(refusal) => counted.refused.push((place, refusal)),
        }
    }
    table(&counted, &|place| names[place].file.clone())
}

/// In which trace each controller waited longest, if it waited.
fn longest_traces(examined: &Examined) -> Vec<String> {
    let traces = || examined.bench.iter().filter(|bench| bench.spot.is_none());
    let waited = |bench: &Bench, m| bench.totals.map_or(0, |totals| totals.longest(m));
    let said = |m: Master| {
        let most = traces().map(|bench| waited(bench, m)).max().filter(|most| *most > 0)?;
        let first = traces().find(|bench| waited(bench, m) == most)?;
        Some(format!("Controller {m} waited longest in {}: {most} ms.", first.file))
    };
    Master::BOTH.into_iter().filter_map(said).collect()
}

fn longest(bench: &Bench) -> String {
    let waited = |totals: &Totals| {
        let [first, second] = Master::BOTH.map(|m| totals.longest(m));
        format!("controller 0: {first}, controller 1: {second}")
    };
    match &bench.totals {
        Ok(totals) => format!("{}: {}", bench.name(), waited(totals)),
        Err(refusal) => format!("{}: {refusal}", bench.name()),
    }
}

/// Whose waits on the bench cannot be held against a promise.
fn not_judged(examined: &Examined) -> Option<String> {
    let pair = examined.pair.as_ref().ok();
    let promises = |m: Master| pair.and_then(|pair| bench::promised(pair, m)).is_some();
    let without: Vec<String> = Master::BOTH
        .into_iter()
        .filter(|&m| !promises(m))
        .map(|m| format!("controller {m}"))
        .collect();
    let said = format!(
        "Nothing is promised to {}, so no wait of the bench is held against it.\n",
        without.join(" and ")
    );
    (!without.is_empty() && !examined.bench.is_empty()).then_some(said)
}

/// The verdict in a line.
pub fn verdict(examined: &Examined) -> String {
    match examined.is_released() {
        false => format!("NOT RELEASED: {}", count(examined.reasons.len(), "reason")),
        true => format!("RELEASED{}: {}", on_purpose(&examined.allowed), promises(examined)),
    }
}

/// The reserves that were let pass, as they follow on the word "released".
pub fn on_purpose(allowed: &[Allowed]) -> String {
    match allowed {
        [] => String::new(),
        [one] => format!(", with controller {}'s reserve without limit on purpose", one.controller),
        _ => ", with both controllers' reserves without limit on purpose".to_string(),
    }
}

/// What is promised to each controller, in short.
pub fn promises(examined: &Examined) -> String {
    let waits = examined.pair.as_ref().map_or(&[][..], |pair: &Pair| &pair.waits);
    let short = |waiting: &Waiting| {
        let holder = waiting.controller.partner();
        match waiting.on[0].1 {
            Wait::Live { ticks } => {
                format!("controller {} waits at most {ticks} ms", waiting.controller)
            }
            Wait::Silent { .. } | Wait::Unbounded => {
                format!(
                    "controller {} waits without limit behind a live controller {holder}",
                    waiting.controller
                )
            }
        }
    };
    waits.iter().map(short).collect::<Vec<_>>().join(", ")
}

fn verdict_and_reasons(examined: &Examined) -> String {
    let mut text = format!("{}\n", verdict(examined));
    for Allowed { controller, what } in &examined.allowed {
        text.push_str(&format!("\nAllowed by --without-limit {controller}: {what}\n"));
    }
    for (number, reason) in (1..).zip(&examined.reasons) {
        text.push_str(&format!("\n{}", in_words(number, reason)));
    }
    text
}

/// A reason: where it is, what is so, and what would mend it.
fn in_words(number: usize, reason: &Reason) -> String {
    let place = reason.place.as_ref().map_or(String::new(), |place| format!(", {place}"));
    let head = format!("{number}. {}{place}", reason.file);
    format!("{head}\n   {}\n   To mend it: {}\n", reason.what, reason.mend)
}
