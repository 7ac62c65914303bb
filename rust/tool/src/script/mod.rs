//! Scripts: a trace as plain text, one event a line.
//!
//! `forms` has the lines, each with an example.
//!
//! Bytes are in hex, and may say so or be in decimal (`bytes`); the count of ticks is in decimal, and what
//! stands after `#` is a comment. Pins and part have no default. In a script for a shelf an event has a
//! name before it (`named`). What is worth a second look is in `warnings`.

pub mod bytes;
pub mod forms;
mod letters;
pub mod named;
pub mod warnings;
mod words;

pub use letters::shown;
pub use words::{each_line, Unread, Words};

use gunwaleish::{run, write_trace, Event, Master, Part, Pins, MOST_EVENTS};

use crate::story::pointers;
use bytes::{written_by, Written};

/// A script that was read.
#[derive(Clone, Debug, PartialEq, Eq)]
pub struct Script {
    pub pins: Pins,
    /// Where the pins are.
    pub pins_line: usize,
    pub part: Part,
    /// The events, and of a script with too many only one more than a trace may have.
    pub events: Vec<Event>,
    /// Where each of them is.
    pub lines: Vec<usize>,
    /// Where the first event is that is too many.
    pub overflow_line: Option<usize>,
    /// The bytes that the events write, as they stand there.
    pub written: Vec<Written>,
}

/// The register of the reserve.
const RT: u8 = 3;

const AN_EVENT: &str =
    "command, write, read, stop, pair, lines, tick, pulse, reset, general, raw, pins or part";
const PINS_FIRST: &str = "pins before the first event";
const NO_PINS: &str = "pins, which the script has nowhere";
const PINS_ONCE: &str = "an event, since the pins are there already";
const PART_FIRST: &str = "part PCA9641 or part TPT29641 before the first event: a script names its \
                          part, since a kind left out and read as a default is how the incident came \
                          about";
const NO_PART: &str = "part PCA9641 or part TPT29641, which the script has nowhere: a script names its \
                       part, since a kind left out and read as a default is how the incident came about";
const PART_ONCE: &str = "an event, since the part is there already";
const NO_NAME: &str = "an event without a name: this script is for one device, and gunwaleish \
                       shelf runs one for several";

pub fn read_script(text: &[u8]) -> Result<Script, Unread> {
    let mut reading = Reading::default();
    let last = each_line(text, |words| reading.take_line(words))?;
    let nowhere = |expected| Unread { line: last, word: String::new(), expected };
    let (pins, pins_line) = reading.pins.ok_or(nowhere(NO_PINS))?;
    let part = reading.part.ok_or(nowhere(NO_PART))?;
    let Reading { events, lines, overflow_line, written, .. } = reading;
    Ok(Script { pins, pins_line, part, events, lines, overflow_line, written })
}

/// What was read so far: the pins with their line, the part, and what a script has besides.
#[derive(Default)]
struct Reading {
    pins: Option<(Pins, usize)>,
    part: Option<Part>,
    events: Vec<Event>,
    lines: Vec<usize>,
    overflow_line: Option<usize>,
    written: Vec<Written>,
}

impl Reading {
    fn take_line(&mut self, words: &mut Words) -> Result<(), Unread> {
        let Some(word) = words.word() else {
            return Ok(());
        };
        match letters::small(word).as_ref() {
            "pins" if self.pins.is_some() => Err(words.unread(word, PINS_ONCE)),
            "pins" => {
                let codes = [words.byte()?, words.byte()?, words.byte()?, words.byte()?];
                self.pins = Some((codes.into(), words.line));
                words.end()
            }
            "part" if self.part.is_some() => Err(words.unread(word, PART_ONCE)),
            "part" => {
                self.part = Some(words.part()?);
                words.end()
            }
            "at" | "place" => Err(words.unread(word, NO_NAME)),
            _ => self.take_event(word, words),
        }
    }

    fn take_event(&mut self, word: &str, words: &mut Words) -> Result<(), Unread> {
        let (first, times) = words.events(word, AN_EVENT)?;
        if self.pins.is_none() {
            return Err(words.unread(word, PINS_FIRST));
        }
        if self.part.is_none() {
            return Err(words.unread(word, PART_FIRST));
        }
        words.end()?;
        if self.events.len() < MOST_EVENTS {
            let (event, line) = (self.events.len(), words.line);
            let bytes = written_by(first, &words.bytes).into_iter();
            self.written.extend(bytes.map(|(master, byte)| Written { event, line, master, byte }));
        }
        let room = MOST_EVENTS + 1 - self.events.len();
        self.events.resize(self.events.len() + times.min(room), first);
        self.lines.resize(self.events.len(), words.line);
        if self.events.len() > MOST_EVENTS {
            self.overflow_line.get_or_insert(words.line);
        }
        Ok(())
    }
}

/// The script of these pins, this part and these events. Reading it gives the same bytes again.
pub fn write_script(pins: Pins, part: Part, events: &[Event]) -> String {
    let mut text = format!("pins {pins}\npart {part}\n");
    let at = registers(pins, part, events);
    let mut place = 0;
    let both_ticks = |a: &Event, b: &Event| *a == Event::Tick && *b == Event::Tick;
    for run in events.chunk_by(both_ticks) {
        text.push_str(&line_at(run[0], run.len(), at.get(place).copied().flatten()));
        text.push('\n');
        place += run.len();
    }
    text
}

/// The registers that the bytes of each event are for, controller 0's first; of a refused event, or of
/// what is no trace, none.
fn registers(pins: Pins, part: Part, events: &[Event]) -> Vec<Option<[u8; 2]>> {
    let run = write_trace(pins, part, events).and_then(|trace| run(&trace));
    run.map_or(vec![], |run| pointers(&run))
}

/// The line of an event, or of so many ticks.
pub fn line_of(event: Event, times: usize) -> String {
    line_at(event, times, None)
}

/// The same, with the registers that its bytes are for. A reserve is written in ms.
pub fn line_at(event: Event, times: usize, at: Option<[u8; 2]>) -> String {
    let level = u8::from;
    let byte = |master: Master, value: u8| match (at.map(|both| both[master as usize]), value) {
        // 00h is no time of 0 ms: it holds until let go.
        (Some(RT), 1..) => format!("{value}ms"),
        _ => format!("{value:02X}"),
    };
    match event {
        Event::Command { master, code } => format!("command {master} {code:02X}"),
        Event::Write { master, value } => format!("write {master} {}", byte(master, value)),
        Event::Read { master } => format!("read {master}"),
        Event::Stop { master } => format!("stop {master}"),
        Event::Pair { value0, value1 } => {
            format!("pair {} {}", byte(Master::Zero, value0), byte(Master::One, value1))
        }
        Event::Lines { scl, sda, int_in } => {
            format!("lines {} {} {}", level(scl), level(sda), level(int_in))
        }
        Event::Tick if times == 1 => "tick".to_string(),
        Event::Tick => format!("tick {times}"),
        Event::Pulse { sda } => format!("pulse {}", level(sda)),
        Event::Reset => "reset".to_string(),
        Event::GeneralCall { master, code } => format!("general {master} {code:02X}"),
        Event::Raw([a, b, c, d]) => format!("raw {a:02X} {b:02X} {c:02X} {d:02X}"),
    }
}
