//! What a pair of sheets orders, in words.

use gunwaleish::{Master, Part, Section};

use super::warnings::warnings;
use super::{lasting, waits, BoxName, Entry, Pair};
use crate::story::idle_limit;
use crate::words::{count, ticks};

/// The six boxes a line each, with the sheet that each comes from before it; those that do not last;
/// what comes of them; and what is to be warned of.
pub fn told(pair: &Pair) -> String {
    let mut text = boxes(pair);
    let lasting = lasting::told(pair);
    if !lasting.is_empty() {
        text.push_str(&format!("\n{lasting}"));
    }
    text.push_str(&format!("\n{}\n", outcome(pair)));
    let warned: String =
        warnings(pair).iter().map(|warning| format!("Warning, {warning}\n")).collect();
    if !warned.is_empty() {
        text.push_str(&format!("\n{warned}"));
    }
    text
}

/// The six boxes a line each.
pub fn boxes(pair: &Pair) -> String {
    let line = |entry| format!("{:<11}  {}\n", from(entry), in_words(pair, entry));
    pair.entries.iter().map(line).collect()
}

fn from(entry: &Entry) -> String {
    entry.found.map_or("neither".to_string(), |found| found.sheet.to_string())
}

const EMPTY: &str = "empty on both sheets";

/// An empty box in words.
pub fn empty(name: BoxName) -> String {
    format!("{name}: {EMPTY}")
}

fn in_words(pair: &Pair, entry: &Entry) -> String {
    format!("{}: {}", entry.name, meaning(pair, entry))
}

/// What a box orders, in words.
pub fn meaning(pair: &Pair, entry: &Entry) -> String {
    let name = entry.name;
    let Some(found) = entry.found else {
        return EMPTY.to_string();
    };
    let meaning = match name.section {
        Section::Reserve => reserve(found.value, pair.value(Section::Idle, name.controller)),
        Section::Priority if found.value == 0 => "0, it asks without priority".to_string(),
        Section::Priority => format!("{}, it asks with priority", found.value),
        Section::Idle => idle(found.value, pair.value(Section::Reserve, name.controller)),
    };
    let over = match entry.passed_over {
        Some(value) => format!(" (over {value} on the house sheet)"),
        None => String::new(),
    };
    format!("{meaning}{over}")
}

/// A reserve, beside the same controller's idle timer. Document 01: with reserve 00h a grant is lost
/// exactly if the idle timer is on and the idle count is at its limit.
fn reserve(value: u8, idle: Option<u8>) -> String {
    let limit = "0, which is without limit: the controller keeps the bus until it lets go";
    match (value, idle) {
        (0, None) => limit.to_string(),
        (0, Some(0)) => format!("{limit}; its idle timer is off, so an idle bus does not end it"),
        (0, Some(_)) => {
            format!("{limit}; its idle timer is on, so an idle bus ends it too, {}", idle_limits())
        }
        _ => {
            format!("{value}, held for {} of 1 ms, then until the bus is idle", ticks(value.into()))
        }
    }
}

/// An idle timer, beside the same controller's reserve.
fn idle(value: u8, reserve: Option<u8>) -> String {
    match (value, reserve) {
        (0, _) => "0, off".to_string(),
        (_, Some(1..)) => format!("{value}, on; with a reserve that is not 0 it ends no grant"),
        _ => format!("{value}, on"),
    }
}

/// At how many idle ticks the idle timer ends a grant, on each part.
pub fn idle_limits() -> String {
    let [first, second] = Part::BOTH;
    let (at_first, at_second) = (idle_limit(first), idle_limit(second));
    format!("at {at_first} idle ticks on a {first}, at {at_second} on a {second}")
}

/// What comes of the boxes: the start, when the one that waits then has its turn, and how long each can
/// wait from then on; or no events.
fn outcome(pair: &Pair) -> String {
    let empty = pair.empty().count();
    if empty > 0 {
        let are = if empty == 1 { "box is" } else { "boxes are" };
        return format!(
            "Not complete: {empty} {are} empty on both sheets, so there are no events.\n\
             An empty box is no 0: tick it on one sheet or the other, and fill in its value."
        );
    }
    format!(
        "Complete: {} start the shelf, on a device fresh from power-up.\n\
         After them controller 0, which asks first, owns the bus, and controller 1 waits.\n{}\n\n{}",
        count(gunwaleish::SHEET_EVENTS, "event"),
        turn(pair),
        waits::told(pair)
    )
}

/// When controller 1 has its turn after the start.
fn turn(pair: &Pair) -> String {
    let of_first = |section| pair.value(section, Master::Zero).unwrap_or(0);
    let unless = "If controller 0 does not let go before, controller 1 is granted the bus";
    match (of_first(Section::Reserve), of_first(Section::Idle)) {
        (0, 0) => {
            "Controller 1 waits until controller 0 lets go, however long that is.".to_string()
        }
        (0, _) => format!("{unless} {}.", idle_limits()),
        (reserve, _) => format!(
            "{unless} at tick {reserve} after the start if it is idle then, else once it is."
        ),
    }
}
