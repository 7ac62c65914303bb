//! Bundles that are not on any disk, for the tests of the verdict. Each of them uses some of this.
#![allow(dead_code)]

use std::path::PathBuf;

use gunwaleish::{write_trace, Event, Master, Part, Pins};
use gunwaleish_tool::release::judge::examine;
use gunwaleish_tool::release::{Asked, Bundle, Examined, Rank, Read, ShelfRead};
use gunwaleish_tool::script::write_script;

pub fn read(name: &str, bytes: impl Into<Vec<u8>>) -> Read {
    let bytes = bytes.into();
    let (path, name, size) = (PathBuf::from(name), name.to_string(), bytes.len() as u64);
    Read { path, name, bytes, size, changed: None, sha256: String::new() }
}

/// What a sheet has in its six boxes, in their order.
pub type Boxes = [Option<u8>; 6];

pub fn sheet(boxes: Boxes) -> Vec<u8> {
    let section = |pair: &[Option<u8>]| {
        let of = |value: &Option<u8>| [u8::from(value.is_some()), value.unwrap_or(0)];
        [vec![2], pair.iter().flat_map(of).collect()].concat()
    };
    boxes.chunks(2).flat_map(section).collect()
}

pub const OPEN: Boxes = [None; 6];
/// Reserves of 50 and 20, priority and idle timer for controller 1.
pub const GOOD: Boxes = [Some(50), Some(20), Some(0), Some(1), Some(0), Some(1)];

pub fn pair(board: Boxes, house: Boxes) -> Bundle {
    Bundle {
        folder: None,
        board: read("b.sheet", sheet(board)),
        house: read("h.sheet", sheet(house)),
        texts: [None, None],
        scripts: None,
        shelf: None,
        traces: vec![],
        others: vec![],
    }
}

pub fn judged(bundle: Bundle) -> Examined {
    examine(bundle, Asked::default())
}

pub fn ranks(examined: &Examined) -> Vec<Rank> {
    examined.reasons.iter().map(|reason| reason.rank).collect()
}

pub fn pins() -> Pins {
    Pins::of_address(0x71).unwrap()
}

/// A controller's start-up as the sheets have it.
pub fn start(master: Master, rt: u8, contr: u8) -> Vec<Event> {
    let write = |code, value| {
        [Event::Command { master, code }, Event::Write { master, value }, Event::Stop { master }]
    };
    [write(3, rt), write(1, contr)].concat()
}

pub fn good_starts() -> [Vec<Event>; 2] {
    [start(Master::Zero, 50, 0x01), start(Master::One, 20, 0xA1)]
}

/// The good pair with these start-up scripts.
pub fn with_starts(part: Part, starts: [Vec<Event>; 2]) -> Bundle {
    let script = |name: &str, events: &[Event]| read(name, write_script(pins(), part, events));
    let scripts = [script("0.script", &starts[0]), script("1.script", &starts[1])];
    Bundle { scripts: Some(scripts), ..pair(GOOD, OPEN) }
}

/// The good start, and then so many ticks.
pub fn waits(reserve: u8, ticks: usize) -> Vec<u8> {
    let start = [start(Master::Zero, reserve, 0x01), start(Master::One, 20, 0xA1)].concat();
    let events = [start, vec![Event::Tick; ticks]].concat();
    write_trace(pins(), Part::Pca9641, &events).unwrap()
}

pub fn with_trace(bytes: Vec<u8>) -> Bundle {
    Bundle { traces: vec![read("a.trace", bytes)], ..pair(GOOD, OPEN) }
}

pub fn with_shelf(shelf: &str, script: &str) -> Bundle {
    let shelf =
        ShelfRead { shelf: read("a.shelf", shelf), scripts: vec![read("a.script", script)] };
    Bundle { shelf: Some(shelf), ..pair(GOOD, OPEN) }
}
