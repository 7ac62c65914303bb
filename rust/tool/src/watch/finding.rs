//! What is found on a watched bus.

use gunwaleish::{Check, Master, Register};

/// Something that is told.
#[derive(Clone, Debug, PartialEq, Eq)]
pub enum Finding {
    /// A READ whose byte is not the model's answer, nor was while it was on the bus.
    Difference(Check),
    /// One whose byte was the model's answer while it was on the bus.
    Overtaken(Check),
    /// A START or STOP inside a byte: on one of these buses, and whether it is a START.
    Fault { buses: Vec<(Master, bool)> },
    /// A wait is above what the sheets promise.
    LongWait { master: Master, promised: u64 },
    /// What was taken of a READ that differed, and the bits that it does not decide.
    Taken { register: Register, things: Vec<String>, left: Vec<String> },
}

/// A finding with its place.
#[derive(Clone, Debug, PartialEq, Eq)]
pub struct Found {
    pub sample: u64,
    /// Samples a second.
    pub rate: u64,
    pub finding: Finding,
}
