//! One call on both sides, and what differs.

use gunwaleish::{boundary, Refusal};
use model::TraceResult;

use crate::figures::{differ, Difference, Figures};
use crate::words::{answer_in_words, event_in_words};

/// A buffer with a pattern. Neighbouring bytes differ, so a stray write of any one value shows.
pub fn pattern(length: usize) -> Vec<u8> {
    (0..length).map(|place| (place as u8).wrapping_mul(29) ^ 0xA5).collect()
}

/// Runs a trace with this room for its answers. Gives what the model said.
pub fn check_run(trace: &[u8], room: usize) -> Result<TraceResult, Difference> {
    let mut expected = pattern(room);
    let result = model::run_trace(trace, &mut expected);
    let mut answers = pattern(room);
    let packed = boundary::run_trace(trace, &mut answers);
    same_packed(&result, packed)?;
    same_answers(trace, &result, &expected, &answers)?;
    same_in_rust(trace, &result, &expected)?;
    Ok(result)
}

/// A refused trace has address 0, 0 events and kind 0 in its packed number too.
fn same_packed(result: &TraceResult, packed: u64) -> Result<(), Difference> {
    let expected = u64::from(result.number)
        + 256 * u64::from(result.address)
        + 65536 * result.events as u64
        + (u64::from(result.kind.number()) << 32);
    if packed == expected {
        return Ok(());
    }
    let take_apart = |packed: u64| {
        let [number, address, ..] = packed.to_le_bytes();
        let (events, kind) = ((packed >> 16) & 0xFFFF, packed >> 32);
        format!("number {number}, address {address:02X}h, {events} events, kind {kind}")
    };
    differ(format!(
        "reports differ\n  model:   {}\n  library: {}",
        take_apart(expected),
        take_apart(packed)
    ))
}

/// Every byte of the buffer counts, also those that have to stay.
fn same_answers(
    trace: &[u8],
    result: &TraceResult,
    expected: &[u8],
    answers: &[u8],
) -> Result<(), Difference> {
    let Some(place) = (0..expected.len()).find(|&at| expected[at] != answers[at]) else {
        return Ok(());
    };
    if place >= 4 * result.events {
        return differ(format!("answer byte {place} had to stay, and was written"));
    }
    let first = place / 4;
    let four = |bytes: &[u8], at: usize| [bytes[at], bytes[at + 1], bytes[at + 2], bytes[at + 3]];
    differ(format!(
        "event {} of {} is answered differently\n  event:   {}\n  model:   {}\n  library: {}",
        first + 1,
        result.events,
        event_in_words(four(trace, 7 + 4 * first)),
        answer_in_words(four(expected, 4 * first)),
        answer_in_words(four(answers, 4 * first))
    ))
}

/// The safe crate says the same in its own types, and leaves the same bytes.
fn same_in_rust(trace: &[u8], result: &TraceResult, expected: &[u8]) -> Result<(), Difference> {
    let mut answers = pattern(expected.len());
    let report = gunwaleish::run_trace(trace, &mut answers);
    let said = match report {
        Ok(report) => (0, report.address, report.events),
        Err(refusal) => (known(refusal)?, 0, 0),
    };
    if said != (result.number, result.address, result.events) {
        return differ(format!(
            "the Rust crate says {report:?}, the model number {}",
            result.number
        ));
    }
    if answers != expected {
        return differ("the Rust crate leaves other answer bytes than the library");
    }
    Ok(())
}

fn known(refusal: Refusal) -> Result<u8, Difference> {
    match refusal {
        Refusal::Unknown(number) => differ(format!("the library gave the number {number}")),
        _ => Ok(refusal.number()),
    }
}

/// Lists a trace into buffers that are too small, that just fit, and that are larger.
pub fn check_listing(trace: &[u8]) -> Result<(), Difference> {
    let text = model::listing(trace);
    let length = text.len();
    for room in [0, length - 1, length, length + 5] {
        let mut expected = pattern(room);
        if length <= room {
            expected[..length].copy_from_slice(text.as_bytes());
        }
        let mut listed = pattern(room);
        let said = boundary::listing(trace, &mut listed);
        if said != length {
            return differ(format!("the listing has {length} bytes, the library says {said}"));
        }
        if let Some(place) = (0..room).find(|&at| expected[at] != listed[at]) {
            return differ(format!(
                "listing of {length} bytes in a room of {room}: byte {place} (line {}) is \
                 {:02X}h, the model has {:02X}h",
                text.as_bytes()[..place.min(length)].iter().filter(|&&b| b == b'\n').count() + 1,
                listed[place],
                expected[place]
            ));
        }
    }
    match gunwaleish::listing(trace) == text {
        true => Ok(()),
        false => differ("the Rust crate lists other text than the library"),
    }
}

/// Pins to address.
pub fn check_address_of(pins: [u8; 4]) -> Result<(), Difference> {
    let expected = match model::address_of(pins) {
        Some(address) => 256 * u32::from(address),
        None => 8,
    };
    let packed = boundary::address_of(pins);
    let in_rust = match gunwaleish::address_of(pins) {
        Ok(address) => 256 * u32::from(address),
        Err(refusal) => u32::from(refusal.number()),
    };
    if (packed, in_rust) != (expected, expected) {
        return differ(format!(
            "address of {pins:?}: model {expected:X}h, library {packed:X}h, Rust crate {in_rust:X}h"
        ));
    }
    Ok(())
}

/// Address to pins.
pub fn check_pins_of(address: u8) -> Result<(), Difference> {
    let pack = |pins: [u8; 4]| {
        let [ad3, ad2, ad1, ad0] = pins;
        u64::from_le_bytes([0, ad3, ad2, ad1, ad0, 0, 0, 0])
    };
    let expected = model::pins_of(address).map_or(11, pack);
    let packed = boundary::pins_of(address);
    let in_rust =
        gunwaleish::pins_of(address).map_or_else(|refusal| u64::from(refusal.number()), pack);
    if (packed, in_rust) != (expected, expected) {
        return differ(format!(
            "pins of {address:02X}h: model {expected:X}h, library {packed:X}h, Rust crate \
             {in_rust:X}h"
        ));
    }
    Ok(())
}

impl Figures {
    /// Runs a trace on both sides and counts it.
    pub fn run(&mut self, trace: &[u8], room: usize) {
        match check_run(trace, room) {
            Ok(result) => self.count(trace, &result),
            Err(difference) => self.tell("trace", trace, format!("room {room}; {difference}")),
        }
    }

    /// Lists a trace on both sides and counts it.
    pub fn list(&mut self, trace: &[u8]) {
        self.listed();
        if let Err(difference) = check_listing(trace) {
            self.tell("trace", trace, &difference);
        }
    }
}
