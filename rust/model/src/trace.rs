//! Whole traces and the listing. Document 01, "Answers and the trace" and M1; the third section is
//! that of document 02, #105.

use crate::device::Device;
use crate::part::Kind;
use crate::straps::address_of;

pub const MOST_EVENTS: usize = 4096;

#[derive(Clone, Debug, PartialEq, Eq)]
pub struct TraceResult {
    /// 0, or the number of the refusal.
    pub number: u8,
    pub address: u8,
    pub events: usize,
    /// "A refused trace gives kind 0" (#105).
    pub kind: Kind,
    pub device: Device,
}

/// What an accepted trace says.
#[derive(Clone, Debug, PartialEq, Eq)]
pub struct Trace {
    /// AD3 to AD0, and the address that they make.
    pub pins: [u8; 4],
    pub address: u8,
    pub events: Vec<[u8; 4]>,
    pub kind: Kind,
}

/// What a refused trace reports: address 00h, 0 events, kind 0 and the fresh device (reading 21).
/// So it is also where a kind 1 was read before the refusal was met.
fn refused(number: u8) -> TraceResult {
    let device = Device::power_up();
    TraceResult { number, address: 0, events: 0, kind: device.kind, device }
}

/// Runs a trace and writes four answer bytes for each event. A refused trace
/// writes nothing. Answer bytes past 4n stay.
pub fn run_trace(trace: &[u8], answers: &mut [u8]) -> TraceResult {
    let Trace { address, events, kind, .. } = match read_trace(trace) {
        Ok(read) => read,
        Err(number) => return refused(number),
    };
    // 9 is the last of the refusals.
    if answers.len() < 4 * events.len() {
        return refused(9);
    }
    let mut device = Device::power_up_of(kind);
    for (place, event) in events.iter().enumerate() {
        let answer = device.step(*event);
        answers[4 * place..4 * place + 4].copy_from_slice(&answer);
    }
    TraceResult { number: 0, address, events: events.len(), kind, device }
}

/// Reads a whole trace. After the events comes "a third section: count byte 1 and kind"; its
/// refusals are met in the order of its bytes, "after the events' 5 and before 7" (#105). The 9
/// that follows is of a run, not of a reading.
pub fn read_trace(trace: &[u8]) -> Result<Trace, u8> {
    let Front { pins, address, events, mut rest } = read_front(trace)?;
    let count = take(&mut rest, 1)?;
    if count[0] != 1 {
        return Err(10);
    }
    let number = take(&mut rest, 1)?;
    let Some(kind) = Kind::of(number[0]) else {
        return Err(3);
    };
    if !rest.is_empty() {
        return Err(7);
    }
    Ok(Trace { pins, address, events, kind })
}

/// The first two sections, which a trace has had from the start, and the bytes after them.
pub struct Front<'a> {
    pub pins: [u8; 4],
    pub address: u8,
    pub events: Vec<[u8; 4]>,
    pub rest: &'a [u8],
}

/// "Trace order: first count missing 5, wrong 10, pins missing 5, pins 8,
/// n missing 5, 6, events missing 5".
pub fn read_front(trace: &[u8]) -> Result<Front<'_>, u8> {
    let mut rest = trace;
    let first_count = take(&mut rest, 1)?;
    if first_count[0] != 4 {
        return Err(10);
    }
    let pins = four(take(&mut rest, 4)?);
    let Some(address) = address_of(pins) else {
        return Err(8);
    };
    let count = take(&mut rest, 2)?;
    let n = usize::from(count[0]) + 256 * usize::from(count[1]);
    if n > MOST_EVENTS {
        return Err(6);
    }
    let events = take(&mut rest, 4 * n)?.chunks(4).map(four).collect();
    Ok(Front { pins, address, events, rest })
}

/// Four bytes as an array.
pub fn four(bytes: &[u8]) -> [u8; 4] {
    [bytes[0], bytes[1], bytes[2], bytes[3]]
}

/// Takes bytes off the front. Missing bytes are refusal 5.
fn take<'a>(rest: &mut &'a [u8], length: usize) -> Result<&'a [u8], u8> {
    if rest.len() < length {
        return Err(5);
    }
    let (front, back) = rest.split_at(length);
    *rest = back;
    Ok(front)
}

/// The text the listing program prints (M1). The count is in hex (reading 20).
pub fn listing(trace: &[u8]) -> String {
    // This room is enough for every accepted trace, so 9 does not come up.
    let mut answers = vec![0u8; 4 * MOST_EVENTS];
    let result = run_trace(trace, &mut answers);
    if result.number != 0 {
        return format!("R{}\n", result.number);
    }
    let mut text = format!("{:02X} {:04X}\n", result.address, result.events);
    for answer in answers[..4 * result.events].chunks(4) {
        text.push_str(&hex(answer));
        text.push('\n');
    }
    text
}

/// Bytes in capital hex, two digits each, with nothing between.
pub fn hex(bytes: &[u8]) -> String {
    bytes.iter().map(|byte| format!("{byte:02X}")).collect()
}
