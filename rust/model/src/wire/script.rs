//! What a controller does on its bus, and what goes on downstream.

use super::bus::LINES;

/// One thing that a controller does. All transfers begin with a START, a repeated one if the last was
/// not ended by a STOP.
#[derive(Clone, Debug, PartialEq, Eq)]
pub enum Item {
    /// A transfer that writes to the device: the COMMAND, then what is written.
    Write(Vec<u8>),
    /// The same, but each byte waits for the partner's, so that both end at one sample.
    Pair(Vec<u8>),
    /// A transfer that reads so many bytes from the device.
    Read(usize),
    /// A transfer with this first byte, which is not the device's.
    Other(u8, Vec<u8>),
    /// A general call with these bytes.
    Call(Vec<u8>),
    Stop,
    /// So many samples in which the bus stays as it is.
    Rest(u64),
    /// The bus stays as it is up to this tick, counted from the first sample.
    Until(u64),
    /// Clocks with these bits, outside START to STOP.
    Clocks(Vec<u8>),
    /// Both lines are low for so many samples, outside START to STOP.
    HeldLow(u64),
    /// So many clocks, two to eight, of a byte that a START or STOP then breaks off.
    Cut {
        clocks: usize,
        by_start: bool,
    },
}

pub type Script = Vec<Item>;

/// The downstream lines from a sample on, as bits 4 to 6. The chip may pull them low besides.
pub type World = Vec<(u64, u8)>;

/// Writes a register and ends with a STOP.
pub fn set(register: u8, value: u8) -> Script {
    vec![Item::Write(vec![register, value]), Item::Stop]
}

/// Reads so many bytes from a command on and ends with a STOP.
pub fn get(code: u8, bytes: usize) -> Script {
    vec![Item::Write(vec![code]), Item::Read(bytes), Item::Stop]
}

/// Reads CONTR, STATUS, RT and INT_STATUS in one go from this tick on.
pub fn look(tick: u64) -> Script {
    [vec![Item::Until(tick)], get(0x81, 4)].concat()
}

/// The levels with these lines low.
pub fn low(lines: u8) -> u8 {
    LINES & !lines
}
