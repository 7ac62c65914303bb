//! Makes a refused trace out of an accepted one.
//! Document 01, "Answers and the trace": refusals 5 to 10 of a whole trace; document 02, #105: 3 for
//! its kind of part.

use crate::rng::Rng;
use crate::straps::address_of;
use crate::trace::MOST_EVENTS;

/// What is wrong with a trace, in the order in which the paper meets it.
#[derive(Clone, Copy, Debug, PartialEq, Eq)]
pub enum Damage {
    FirstCountMissing,
    FirstCountWrong,
    CutInPins,
    PinAboveThree,
    UnlistedStrapping,
    CutInCount,
    CountTooBig,
    CutInEvents,
    NoKindSection,
    KindCountWrong,
    KindMissing,
    AnotherKind,
    BytesAfterEnd,
    RoomTooSmall,
}

pub const ALL_DAMAGES: [Damage; 14] = [
    Damage::FirstCountMissing,
    Damage::FirstCountWrong,
    Damage::CutInPins,
    Damage::PinAboveThree,
    Damage::UnlistedStrapping,
    Damage::CutInCount,
    Damage::CountTooBig,
    Damage::CutInEvents,
    Damage::NoKindSection,
    Damage::KindCountWrong,
    Damage::KindMissing,
    Damage::AnotherKind,
    Damage::BytesAfterEnd,
    Damage::RoomTooSmall,
];

/// A trace, the room for its answers, and the refusal it must meet.
#[derive(Clone, Debug, PartialEq, Eq)]
pub struct Refused {
    pub trace: Vec<u8>,
    pub room: usize,
    pub number: u8,
}

/// Damages an accepted trace that has at least one event. The room is enough
/// for the answers unless the room is the damage.
pub fn damage(rng: &mut Rng, good: &[u8], kind: Damage) -> Refused {
    let mut trace = good.to_vec();
    // Seven bytes stand before the events, and two after them.
    let end = good.len() - 2;
    let mut room = end - 7 + rng.below(9) as usize;
    let number = match kind {
        Damage::FirstCountMissing => cut(&mut trace, 0, 5),
        Damage::FirstCountWrong => wrong_first_count(rng, &mut trace),
        Damage::CutInPins => cut(&mut trace, rng.between(1, 4) as usize, 5),
        Damage::PinAboveThree => pin_above_three(rng, &mut trace),
        Damage::UnlistedStrapping => {
            trace[1..5].copy_from_slice(&unlisted(rng));
            8
        }
        Damage::CutInCount => cut(&mut trace, rng.between(5, 6) as usize, 5),
        Damage::CountTooBig => count_too_big(rng, &mut trace),
        Damage::CutInEvents => cut(&mut trace, rng.between(7, end as u64 - 1) as usize, 5),
        // This one is an old trace.
        Damage::NoKindSection => cut(&mut trace, end, 5),
        Damage::KindCountWrong => {
            trace[end] = rng.pick(&[0, 2, 4, 255]);
            end_of_any_length(rng, &mut trace);
            10
        }
        Damage::KindMissing => cut(&mut trace, end + 1, 5),
        Damage::AnotherKind => another_kind(rng, &mut trace),
        Damage::BytesAfterEnd => {
            more_bytes(rng, &mut trace, 1);
            7
        }
        Damage::RoomTooSmall => {
            room = rng.below(end as u64 - 7) as usize;
            9
        }
    };
    Refused { trace, room, number }
}

fn wrong_first_count(rng: &mut Rng, trace: &mut Vec<u8>) -> u8 {
    trace[0] = rng.pick(&[0, 1, 2, 3, 5, 8, 255]);
    let length = rng.between(1, trace.len() as u64) as usize;
    cut(trace, length, 10)
}

fn pin_above_three(rng: &mut Rng, trace: &mut [u8]) -> u8 {
    trace[rng.between(1, 4) as usize] = rng.between(4, 255) as u8;
    8
}

fn count_too_big(rng: &mut Rng, trace: &mut [u8]) -> u8 {
    let n = rng.between(MOST_EVENTS as u64 + 1, 65_535) as u16;
    trace[5..7].copy_from_slice(&n.to_le_bytes());
    6
}

/// The kind of part is the last byte.
fn another_kind(rng: &mut Rng, trace: &mut Vec<u8>) -> u8 {
    let kind = trace.len() - 1;
    trace[kind] = rng.between(2, 255) as u8;
    more_bytes(rng, trace, 0);
    3
}

fn cut(trace: &mut Vec<u8>, length: usize, number: u8) -> u8 {
    trace.truncate(length);
    number
}

/// Adds bytes after the end, so many at least.
fn more_bytes(rng: &mut Rng, trace: &mut Vec<u8>, fewest: u64) {
    (0..rng.between(fewest, 9)).for_each(|_| trace.push(rng.byte()));
}

/// Takes the last byte away, leaves all as it is, or adds bytes.
fn end_of_any_length(rng: &mut Rng, trace: &mut Vec<u8>) {
    if rng.percent(30) {
        trace.pop();
    } else {
        more_bytes(rng, trace, 0);
    }
}

/// Four good pin codes that make no listed strapping.
fn unlisted(rng: &mut Rng) -> [u8; 4] {
    loop {
        let mut code = || rng.below(4) as u8;
        let pins = [code(), code(), code(), code()];
        if address_of(pins).is_none() {
            return pins;
        }
    }
}
