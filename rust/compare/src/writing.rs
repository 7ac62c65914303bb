//! The writer on both sides, and the way through the reader and back (document 02, #101 and #105).

use gunwaleish::boundary;
use model::rng::Rng;
use model::straps::pins_of;
use model::trace::MOST_EVENTS;
use model::traces::event_list;
use model::{address_of, read_trace, write_trace, Written};

use crate::check::{check_run, pattern};
use crate::figures::{differ, Difference, Figures};

/// Writes a trace into a buffer of this room. Gives the number of the answer.
pub fn check_write(pins: [u8; 4], kind: u8, events: &[u8], room: usize) -> Result<u8, Difference> {
    let mut expected = pattern(room);
    let written = write_trace(pins, kind, events, &mut expected);
    let mut trace = pattern(room);
    let packed = boundary::write_trace(pins, kind, events, &mut trace);
    same_written(written, packed, &expected, &trace)?;
    if written.number == 0 {
        check_read_back(pins, kind, events, &trace[..written.length])?;
    }
    Ok(written.number)
}

/// The same number and length, and the same bytes, also those that have to stay.
pub fn same_written(
    written: Written,
    packed: u64,
    expected: &[u8],
    trace: &[u8],
) -> Result<(), Difference> {
    if packed != u64::from(written.number) + 256 * written.length as u64 {
        return differ(format!(
            "reports differ\n  model:   number {}, length {}\n  library: number {}, length {}",
            written.number,
            written.length,
            packed % 256,
            packed / 256
        ));
    }
    match (0..expected.len()).find(|&at| expected[at] != trace[at]) {
        None => Ok(()),
        Some(place) => {
            let (model, library) = (expected[place], trace[place]);
            differ(format!("byte {place}: model {model:02X}h, library {library:02X}h"))
        }
    }
}

/// The library's reader finds the same pins, kind and events in what its writer wrote.
fn check_read_back(pins: [u8; 4], kind: u8, events: &[u8], trace: &[u8]) -> Result<(), Difference> {
    let read = check_run(trace, events.len())?;
    let found = (read.number, Some(read.address), read.kind.number(), 4 * read.events);
    if found != (0, address_of(pins), kind, events.len()) {
        return differ(format!("what was written reads as number {}, {found:?}", read.number));
    }
    Ok(())
}

/// An accepted trace, taken apart and written again, is the same bytes. `check_write` has seen
/// that both sides write the same, so it is enough to ask the library.
pub fn check_write_again(trace: &[u8]) -> Result<(), Difference> {
    let read = read_trace(trace).map_err(|number| format!("the model refuses it: {number}"))?;
    let (kind, events) = (read.kind.number(), read.events.concat());
    let mut again = pattern(trace.len());
    let packed = boundary::write_trace(read.pins, kind, &events, &mut again);
    if packed != 256 * trace.len() as u64 || again != trace {
        return differ(format!("written again, a trace differs (packed {packed:X}h)"));
    }
    Ok(())
}

/// Random calls of the writer: every refusal, and rooms that are one byte short, exact, longer.
pub fn writer_calls(rng: &mut Rng, figures: &mut Figures) {
    for _ in 0..12 {
        let events = event_bytes(rng);
        let pins = pins_of(rng.between(0x08, 0x77) as u8).unwrap_or_default();
        let kind = rng.below(2) as u8;
        let length = 9 + events.len();
        for room in [length - 1, length, length + 5, rng.below(length as u64) as usize] {
            figures.write(pins, kind, &events, room);
        }
        figures.write(any_pins(rng), any_kind(rng), &events, length);
        figures.write(pins, rng.between(2, 255) as u8, &events, rng.pick(&[0, length - 1, length]));
        let mut odd = events;
        (0..rng.between(1, 3)).for_each(|_| odd.push(rng.byte()));
        figures.write(pins, any_kind(rng), &odd, rng.pick(&[0, length, length + 9]));
        figures.write(any_pins(rng), kind, &odd, rng.pick(&[0, length + 9]));
    }
    about_the_most(rng, figures);
}

/// Events of a run, or any bytes in fours.
fn event_bytes(rng: &mut Rng) -> Vec<u8> {
    let count = rng.below(41) as usize;
    if rng.percent(50) {
        return event_list(rng.below(1 << 31), count).concat();
    }
    (0..4 * count).map(|_| rng.byte()).collect()
}

/// Good codes for the most part; about half of these pins have no address.
fn any_pins(rng: &mut Rng) -> [u8; 4] {
    let above = rng.pick(&[2, 4, 4, 6, 256]);
    let mut code = || rng.below(above) as u8;
    [code(), code(), code(), code()]
}

/// A kind that there is, or any number.
fn any_kind(rng: &mut Rng) -> u8 {
    let any = rng.byte();
    rng.pick(&[0, 1, 2, any])
}

/// As many events as a trace may have, one more, and a byte more than fours.
fn about_the_most(rng: &mut Rng, figures: &mut Figures) {
    let bytes: Vec<u8> = (0..4 * MOST_EVENTS + 5).map(|_| rng.byte()).collect();
    let room = 9 + bytes.len();
    let exact = 9 + 4 * MOST_EVENTS;
    let kind = rng.below(2) as u8;
    figures.write([0; 4], kind, &bytes[..4 * MOST_EVENTS], exact);
    figures.write([0; 4], kind, &bytes[..4 * MOST_EVENTS], exact - 1);
    figures.write([0; 4], 2, &bytes[..4 * MOST_EVENTS], exact - 1);
    figures.write([0; 4], kind, &bytes[..4 * MOST_EVENTS + 1], room);
    let one_more = &bytes[..4 * MOST_EVENTS + 4];
    figures.write([0; 4], any_kind(rng), one_more, rng.pick(&[0, exact, room]));
    figures.write([0; 4], any_kind(rng), &bytes, room);
}

impl Figures {
    /// Writes a trace on both sides and counts it.
    pub fn write(&mut self, pins: [u8; 4], kind: u8, events: &[u8], room: usize) {
        match check_write(pins, kind, events, room) {
            Ok(number) => self.answered("write", number),
            Err(difference) => {
                let call = format!("written with pins {pins:?}, kind {kind}, room {room}");
                self.tell("events", events, format!("{call}; {difference}"))
            }
        }
    }

    /// Has the library write an accepted trace again.
    pub fn write_again(&mut self, trace: &[u8]) {
        if let Err(difference) = check_write_again(trace) {
            self.tell("trace", trace, &difference);
        }
    }
}
