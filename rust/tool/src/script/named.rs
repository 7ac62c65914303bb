//! Scripts for a shelf: one event a line, with the name of the device that it is for. Document 02,
//! #110.
//!
//! | line | whom it reaches |
//! |---|---|
//! | `at 71 command 0 03` | the device at address 71h; so with `write`, `read`, `stop` and `pair` |
//! | `place 2 lines 1 0 1` | the device at place 2 of the row, from 0; so with `pulse` |
//! | `tick`, `reset`, `general 0 06` | all devices: no name |
//! | `at 71 raw 00 00 08 00` | by its first byte, as the events above; `raw FF 00 00 00` has no name |
//!
//! The rest is as in a script for one device. Addresses and parts stand in the shelf file, so there
//! are no pins and no part here.

use std::fmt;

use gunwaleish::{Event, MOST_EVENTS};

use super::bytes::{written_by, Written};
use super::{each_line, line_of, Unread, Words};

/// The device that an event is for.
#[derive(Clone, Copy, Debug, PartialEq, Eq)]
pub enum Name {
    Address(u8),
    /// From 0.
    Place(u8),
    /// No name: it reaches all.
    All,
}

impl Name {
    /// The number beside the event's four bytes. It is not looked at where the event reaches all.
    pub fn number(self) -> u8 {
        match self {
            Name::Address(number) | Name::Place(number) => number,
            Name::All => 0,
        }
    }
}

/// An event of a script for a shelf.
#[derive(Clone, Copy, Debug, PartialEq, Eq)]
pub struct Named {
    pub line: usize,
    pub name: Name,
    pub event: Event,
}

/// As a script has it.
impl fmt::Display for Named {
    fn fmt(&self, f: &mut fmt::Formatter) -> fmt::Result {
        match self.name {
            Name::Address(address) => write!(f, "at {address:02X} ")?,
            Name::Place(place) => write!(f, "place {place} ")?,
            Name::All => {}
        }
        f.write_str(&line_of(self.event, 1))
    }
}

const SHELF_HAS_IT: &str = "an event: the shelf file has the address and the part of each device";
const A_LINE: &str = "at, place, tick, reset, general or raw";
const AN_EVENT: &str = "command, write, read, stop, pair, lines, pulse or raw after the name";
const AN_ADDRESS: &str =
    "at and an address before it, such as at 71: on a shelf it is for one device";
const A_PLACE: &str =
    "place and a number before it, such as place 0: on a shelf it is for one device";
const NO_NAME: &str = "no name before it, since it reaches all devices";
const FEWER: &str = "the end: a script has 4,096 events at the most";

/// The events of a script for a shelf.
pub fn read_named(text: &[u8]) -> Result<Vec<Named>, Unread> {
    read_named_bytes(text).map(|(events, _)| events)
}

/// The same with the bytes that they write, as they stand there.
pub fn read_named_bytes(text: &[u8]) -> Result<(Vec<Named>, Vec<Written>), Unread> {
    let (mut events, mut written) = (vec![], vec![]);
    each_line(text, |words| {
        let event = events.len();
        take_line(words, &mut events)?;
        if let Some(named) = events.get(event) {
            let bytes = written_by(named.event, &words.bytes).into_iter();
            let line = words.line;
            written.extend(bytes.map(|(master, byte)| Written { event, line, master, byte }));
        }
        Ok(())
    })?;
    Ok((events, written))
}

fn take_line(words: &mut Words, events: &mut Vec<Named>) -> Result<(), Unread> {
    let Some(first) = words.word() else {
        return Ok(());
    };
    let (name, word) = match first.to_ascii_lowercase().as_str() {
        "pins" | "part" => return Err(words.unread(first, SHELF_HAS_IT)),
        "at" => (Name::Address(words.byte()?), words.word().unwrap_or_default()),
        "place" => (Name::Place(words.place()?), words.word().unwrap_or_default()),
        _ => (Name::All, first),
    };
    let expected = if name == Name::All { A_LINE } else { AN_EVENT };
    let (event, times) = words.events(word, expected)?;
    if let Some(expected) = misnamed(name, event) {
        return Err(words.unread(word, expected));
    }
    words.end()?;
    if events.len() + times > MOST_EVENTS {
        return Err(words.unread(first, FEWER));
    }
    events.extend(vec![Named { line: words.line, name, event }; times]);
    Ok(())
}

/// What is missing if an event has not the name that its kind asks for. The kind alone decides.
fn misnamed(name: Name, event: Event) -> Option<&'static str> {
    match (event.bytes()[0], name) {
        (0..=4, Name::Address(_)) | (5 | 7, Name::Place(_)) | (6 | 8.., Name::All) => None,
        (0..=4, _) => Some(AN_ADDRESS),
        (5 | 7, _) => Some(A_PLACE),
        (6 | 8.., _) => Some(NO_NAME),
    }
}
