//! An event and its four bytes. Document 01, "Events".

use core::fmt;

/// One of the two masters, which are the shelf's two controllers.
#[derive(Clone, Copy, Debug, PartialEq, Eq, Hash, PartialOrd, Ord)]
pub enum Master {
    /// 0: the controller at upstream port 0, whose interrupt output is INT0.
    Zero,
    /// 1: the controller at upstream port 1, whose interrupt output is INT1.
    One,
}

impl Master {
    /// Master 0, then master 1.
    pub const BOTH: [Master; 2] = [Master::Zero, Master::One];

    /// 0 or 1.
    pub fn number(self) -> u8 {
        self as u8
    }

    /// The other master, with whom this one shares the bus and exchanges mail.
    pub fn partner(self) -> Master {
        match self {
            Master::Zero => Master::One,
            Master::One => Master::Zero,
        }
    }

    /// The master of this number.
    pub fn of(number: u8) -> Option<Master> {
        match number {
            0 => Some(Master::Zero),
            1 => Some(Master::One),
            _ => None,
        }
    }
}

impl fmt::Display for Master {
    fn fmt(&self, f: &mut fmt::Formatter) -> fmt::Result {
        self.number().fmt(f)
    }
}

/// What happens at one instant: one of the ten kinds, or four bytes that are none of them.
///
/// Four bytes become an `Event` and an `Event` becomes four bytes, and nothing is lost on the way:
/// bytes that no kind has are kept in `Raw`. The library refuses those when it runs them, and it
/// writes them as they are.
///
/// ```
/// use gunwaleish::{Event, Master};
///
/// let write = Event::Write { master: Master::One, value: 0x05 };
/// assert_eq!(write.bytes(), [1, 1, 5, 0]);
/// assert_eq!(Event::from([1, 1, 5, 0]), write);
/// // No kind has a third field here.
/// assert_eq!(Event::from([1, 1, 5, 9]), Event::Raw([1, 1, 5, 9]));
/// ```
#[derive(Clone, Copy, Debug, PartialEq, Eq, Hash)]
pub enum Event {
    /// 0, COMMAND: opens the master's port for writing and sets its pointer.
    Command {
        /// Whose port is opened.
        master: Master,
        /// Bit 7 is auto-increment, bits 2 to 0 are the pointer. With one of bits 6 to 3 set it is not
        /// acknowledged: both stay as they were, and the port is open but not for writing.
        code: u8,
    },
    /// 1, WRITE: writes a byte at the pointer. The port must be open for writing.
    Write {
        /// Who writes.
        master: Master,
        /// The byte for the register at the pointer.
        value: u8,
    },
    /// 2, READ: reads the byte at the pointer. The port is then open, but not for writing.
    Read {
        /// Who reads. The byte stands in the answer.
        master: Master,
    },
    /// 3, STOP: ends the transfer, and the port goes to rest. The port must be open.
    Stop {
        /// Whose port goes to rest. Before that no claim of its own is granted.
        master: Master,
    },
    /// 4, PAIR: both masters write at one instant. Both ports must be open for writing.
    Pair {
        /// The byte that master 0 writes at its pointer.
        value0: u8,
        /// The byte that master 1 writes at its pointer.
        value1: u8,
    },
    /// 5, LINES: the outside levels, what the connected master does included; true is high.
    Lines {
        /// The outside level of the downstream bus's SCL.
        scl: bool,
        /// The outside level of the downstream bus's SDA.
        sda: bool,
        /// The level of INT_IN. Its fall sets bit 0 of INT_STATUS for both masters.
        int_in: bool,
    },
    /// 6, TICK: one millisecond.
    Tick,
    /// 7, PULSE: the result of one initialisation clock. An initialisation must be running.
    Pulse {
        /// The level of SDA at that clock. A high one ends the initialisation, and the switch closes; at
        /// the ninth low one the initialisation fails.
        sda: bool,
    },
    /// 8, RESET: the reset pin.
    Reset,
    /// 9, GENERAL CALL: a byte that a master sends to all devices at once.
    GeneralCall {
        /// The sender. If it had SMBUS_SWRST set, SCL is held low for 35 ticks after a soft reset.
        master: Master,
        /// 06h is the soft reset. Any other byte is not acknowledged and has no effect.
        code: u8,
    },
    /// Any four bytes. `Event::from` gives this one only for bytes that no kind above has.
    Raw([u8; 4]),
}

impl Event {
    /// The four bytes of this event.
    pub fn bytes(self) -> [u8; 4] {
        let level = u8::from;
        match self {
            Event::Command { master, code } => [0, master.number(), code, 0],
            Event::Write { master, value } => [1, master.number(), value, 0],
            Event::Read { master } => [2, master.number(), 0, 0],
            Event::Stop { master } => [3, master.number(), 0, 0],
            Event::Pair { value0, value1 } => [4, value0, value1, 0],
            Event::Lines { scl, sda, int_in } => [5, level(scl), level(sda), level(int_in)],
            Event::Tick => [6, 0, 0, 0],
            Event::Pulse { sda } => [7, level(sda), 0, 0],
            Event::Reset => [8, 0, 0, 0],
            Event::GeneralCall { master, code } => [9, master.number(), code, 0],
            Event::Raw(bytes) => bytes,
        }
    }

    /// The kind that these bytes have, if they have one.
    fn of_a_kind([kind, a, b, c]: [u8; 4]) -> Option<Event> {
        let master = Master::of(a);
        Some(match (kind, b, c) {
            (0, code, 0) => Event::Command { master: master?, code },
            (1, value, 0) => Event::Write { master: master?, value },
            (2, 0, 0) => Event::Read { master: master? },
            (3, 0, 0) => Event::Stop { master: master? },
            (4, value1, 0) => Event::Pair { value0: a, value1 },
            (5, ..) => Event::Lines { scl: level(a)?, sda: level(b)?, int_in: level(c)? },
            (6, 0, 0) if a == 0 => Event::Tick,
            (7, 0, 0) => Event::Pulse { sda: level(a)? },
            (8, 0, 0) if a == 0 => Event::Reset,
            (9, code, 0) => Event::GeneralCall { master: master?, code },
            _ => return None,
        })
    }
}

fn level(byte: u8) -> Option<bool> {
    match byte {
        0 => Some(false),
        1 => Some(true),
        _ => None,
    }
}

impl From<[u8; 4]> for Event {
    fn from(bytes: [u8; 4]) -> Event {
        Event::of_a_kind(bytes).unwrap_or(Event::Raw(bytes))
    }
}

impl From<Event> for [u8; 4] {
    fn from(event: Event) -> [u8; 4] {
        event.bytes()
    }
}
