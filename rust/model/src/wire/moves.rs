//! What a plan is made of. A move is a level of SCL and SDA and how long it lasts; some moves wait for
//! something before they begin, and the bus stays as it was until then.

use super::bus::Sign;

/// Where the level of SDA comes from.
#[derive(Clone, Copy, Debug, PartialEq, Eq)]
pub enum Sda {
    Keep,
    Level(u8),
    /// This bit of the byte that the chip shows.
    Chip(u8),
    /// The chip's acknowledgement of this event.
    Ack([u8; 4]),
}

/// What a move waits for.
#[derive(Clone, Copy, Debug, PartialEq, Eq)]
pub enum Gate {
    Open,
    /// This sample.
    After(u64),
    /// SCL falls and the chip begins to show a byte. Where reads are kept apart, nothing else may
    /// stand from here to the byte's ninth clock.
    Latch,
    /// An event stands at this move's first sample, which no read of the partner may enclose.
    Event,
    /// The ninth clock of a byte that is read.
    Answer,
}

/// What an event waits for besides.
#[derive(Clone, Copy, Debug, PartialEq, Eq)]
pub enum Wait {
    No,
    /// The partner's event, for at most so many samples.
    Partner(u64),
    /// The sample of a TICK.
    Tick,
}

#[derive(Clone, Debug, PartialEq, Eq)]
pub struct Move {
    pub scl: u8,
    pub sda: Sda,
    pub lasts: u64,
    pub gate: Gate,
    pub wait: Wait,
    pub gives: Option<[u8; 4]>,
    pub sign: Option<Sign>,
    /// It is a START or STOP inside a byte.
    pub fault: bool,
}

/// How a bus is drawn.
#[derive(Clone, Copy, Debug, PartialEq, Eq)]
pub struct Manner {
    /// The most samples that a level lasts.
    pub slowest: u64,
    /// So many events of a hundred wait for the partner's, and so many for a TICK.
    pub meets: u64,
    pub aims: u64,
    /// In so many clocks of a hundred SDA moves once more while SCL is low.
    pub glitches: u64,
    /// Between the first bit of a byte that is read and its ninth clock nothing else happens.
    pub apart: bool,
    /// What the chip pulls low downstream is low in the samples.
    pub echo: bool,
    /// Bit 7 of the samples is anything.
    pub bit_7: bool,
}

/// Each level lasts as long as every other, and nothing is left to chance.
pub const PLAIN: Manner =
    Manner { slowest: 1, meets: 0, aims: 0, glitches: 0, apart: true, echo: true, bit_7: false };
