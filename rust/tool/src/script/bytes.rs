//! A byte of a script, and how it is written.
//!
//! | word | value |
//! |---|---|
//! | `32` | 32h, as bytes were always written |
//! | `32h`, `0x32` | 32h, and the word says so |
//! | `50d` | 50 in decimal; three letters or more, since `5d` is the byte 5Dh |
//! | `50ms` | 50 in decimal, for a byte that is a time: RT |

use gunwaleish::{Event, Master};

use super::letters::small;

/// In what a byte is written.
#[derive(Clone, Copy, Debug, PartialEq, Eq)]
pub enum Mark {
    /// Hex, and nothing says so.
    None,
    Hex,
    Decimal,
    Milliseconds,
}

/// A byte as it stands in a script.
#[derive(Clone, Debug, PartialEq, Eq)]
pub struct Byte {
    pub word: String,
    pub value: u8,
    pub mark: Mark,
}

/// A byte that an event writes: whose it is, and where it stands.
#[derive(Clone, Debug, PartialEq, Eq)]
pub struct Written {
    /// The place of the event among the script's events, from 0.
    pub event: usize,
    pub line: usize,
    pub master: Master,
    pub byte: Byte,
}

/// The byte that a word is.
pub fn read(word: &str) -> Option<Byte> {
    let small = small(word);
    let (value, mark) = if let Some(digits) = small.strip_prefix("0x") {
        (hex(digits)?, Mark::Hex)
    } else if let Some(digits) = small.strip_suffix("ms") {
        (decimal(digits)?, Mark::Milliseconds)
    } else if let Some(value) = hex(&small) {
        (value, Mark::None)
    } else if let Some(digits) = small.strip_suffix('h') {
        (hex(digits)?, Mark::Hex)
    } else {
        (decimal(small.strip_suffix('d')?)?, Mark::Decimal)
    };
    Some(Byte { word: word.to_string(), value, mark })
}

fn hex(digits: &str) -> Option<u8> {
    let plain = digits.len() <= 2 && digits.bytes().all(|byte| byte.is_ascii_hexdigit());
    u8::from_str_radix(digits, 16).ok().filter(|_| plain)
}

fn decimal(digits: &str) -> Option<u8> {
    let plain = digits.len() <= 3 && digits.bytes().all(|byte| byte.is_ascii_digit());
    digits.parse().ok().filter(|_| plain)
}

impl Byte {
    /// What somebody who thinks in decimal takes this word for, if that is another value.
    pub fn misread(&self) -> Option<u8> {
        let digits = self.word.trim_end_matches('d');
        let other = decimal(digits).filter(|&value| value != self.value);
        other.filter(|_| self.mark == Mark::None)
    }

    /// A digit and a small d, which looks like decimal and is hex.
    pub fn looks_decimal(&self) -> bool {
        self.mark == Mark::None && self.word.ends_with('d') && self.misread().is_some()
    }
}

/// The bytes that an event writes, out of all bytes of its line, which they end.
pub fn written_by(event: Event, bytes: &[Byte]) -> Vec<(Master, Byte)> {
    let masters = match event {
        Event::Write { master, .. } => vec![master],
        Event::Pair { .. } => Master::BOTH.to_vec(),
        _ => vec![],
    };
    let own = &bytes[bytes.len().saturating_sub(masters.len())..];
    masters.into_iter().zip(own.iter().cloned()).collect()
}
