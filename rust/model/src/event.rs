//! What the four bytes of an event mean. Document 01, "Events".

/// An event that reads as one.
#[derive(Clone, Copy, Debug, PartialEq, Eq)]
pub enum Event {
    Command { master: usize, code: u8 },
    Write { master: usize, value: u8 },
    Read { master: usize },
    Stop { master: usize },
    Pair { values: [u8; 2] },
    Lines { scl: bool, sda: bool, int_in: bool },
    Tick,
    Pulse { sda: bool },
    Reset,
    GeneralCall { master: usize, code: u8 },
}

/// "b = 06h soft reset".
pub const SOFT_RESET: u8 = 0x06;

/// The greatest value of each field, one row for each kind.
/// 0 is an unused field, 1 a master or a level, 255 any byte.
const GREATEST: [[u8; 3]; 10] = [
    [1, 255, 0],   // 0 COMMAND: m, c
    [1, 255, 0],   // 1 WRITE: m, v
    [1, 0, 0],     // 2 READ: m
    [1, 0, 0],     // 3 STOP: m
    [255, 255, 0], // 4 PAIR: v0, v1
    [1, 1, 1],     // 5 LINES: SCL, SDA, INT_IN
    [0, 0, 0],     // 6 TICK
    [1, 0, 0],     // 7 PULSE: SDA
    [0, 0, 0],     // 8 RESET
    [1, 255, 0],   // 9 GENERAL CALL: m, b
];

/// Reads four bytes. The error is the number of the refusal.
/// 2 comes before 3 ("Event order: 2, 3, 4").
pub fn read_event(bytes: [u8; 4]) -> Result<Event, u8> {
    let [kind, a, b, c] = bytes;
    let Some(greatest) = GREATEST.get(kind as usize) else {
        return Err(2);
    };
    if a > greatest[0] || b > greatest[1] || c > greatest[2] {
        return Err(3);
    }
    let master = a as usize;
    Ok(match kind {
        0 => Event::Command { master, code: b },
        1 => Event::Write { master, value: b },
        2 => Event::Read { master },
        3 => Event::Stop { master },
        4 => Event::Pair { values: [a, b] },
        5 => Event::Lines { scl: a == 1, sda: b == 1, int_in: c == 1 },
        6 => Event::Tick,
        7 => Event::Pulse { sda: a == 1 },
        8 => Event::Reset,
        9 => Event::GeneralCall { master, code: b },
        _ => return Err(2),
    })
}

impl Event {
    /// Pin reset and soft reset are the resets (reading 22).
    pub fn is_reset(&self) -> bool {
        match self {
            Event::Reset => true,
            Event::GeneralCall { code, .. } => *code == SOFT_RESET,
            _ => false,
        }
    }
}

/// The bytes of good events, for tests and for the random cases.
pub mod make {
    pub fn command(m: u8, code: u8) -> [u8; 4] {
        [0, m, code, 0]
    }
    pub fn write(m: u8, value: u8) -> [u8; 4] {
        [1, m, value, 0]
    }
    pub fn read(m: u8) -> [u8; 4] {
        [2, m, 0, 0]
    }
    pub fn stop(m: u8) -> [u8; 4] {
        [3, m, 0, 0]
    }
    pub fn pair(v0: u8, v1: u8) -> [u8; 4] {
        [4, v0, v1, 0]
    }
    pub fn lines(scl: u8, sda: u8, int_in: u8) -> [u8; 4] {
        [5, scl, sda, int_in]
    }
    pub fn tick() -> [u8; 4] {
        [6, 0, 0, 0]
    }
    pub fn pulse(sda: u8) -> [u8; 4] {
        [7, sda, 0, 0]
    }
    pub fn reset() -> [u8; 4] {
        [8, 0, 0, 0]
    }
    pub fn general_call(m: u8, b: u8) -> [u8; 4] {
        [9, m, b, 0]
    }
}
