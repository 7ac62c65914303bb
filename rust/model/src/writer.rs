//! A trace written from pins, kind and events. Document 02, #101 and #105.

use crate::part::Kind;
use crate::straps::address_of;
use crate::trace::MOST_EVENTS;

/// What the writer answers.
#[derive(Clone, Copy, Debug, PartialEq, Eq)]
pub struct Written {
    /// 0, or the number of the refusal.
    pub number: u8,
    /// How many bytes the trace has. A refusal has none.
    pub length: usize,
}

/// Writes the trace of these pins, AD3 first, the kind of this number, and these
/// event bytes. A refusal leaves the buffer untouched, and bytes past the trace stay.
pub fn write_trace(pins: [u8; 4], kind: u8, events: &[u8], trace: &mut [u8]) -> Written {
    match written(pins, kind, events) {
        Err(number) => Written { number, length: 0 },
        Ok(bytes) => put(&bytes, trace),
    }
}

/// Puts a trace at the front of a lent buffer. Its room is looked at last: 9.
pub(crate) fn put(bytes: &[u8], trace: &mut [u8]) -> Written {
    if trace.len() < bytes.len() {
        return Written { number: 9, length: 0 };
    }
    trace[..bytes.len()].copy_from_slice(bytes);
    Written { number: 0, length: bytes.len() }
}

/// "8 for the pins, 5 for event bytes not in fours, 6 for too many", and
/// "another kind with 3 just before 9". No event is looked at: "Events are written as given".
fn written(pins: [u8; 4], kind: u8, events: &[u8]) -> Result<Vec<u8>, u8> {
    if address_of(pins).is_none() {
        return Err(8);
    }
    if !events.len().is_multiple_of(4) {
        return Err(5);
    }
    let n = events.len() / 4;
    if n > MOST_EVENTS {
        return Err(6);
    }
    if Kind::of(kind).is_none() {
        return Err(3);
    }
    let count = [(n % 256) as u8, (n / 256) as u8];
    Ok([&[4], &pins[..], &count, events, &[1, kind]].concat())
}
