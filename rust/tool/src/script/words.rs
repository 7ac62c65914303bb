//! The words of a line, read one by one as what they are expected to be.

use std::error::Error;
use std::fmt;

use gunwaleish::{Event, Master, Part, MOST_EVENTS};

use super::bytes::{self, Byte};
use super::letters::{shown, small};

/// What could not be read, and where.
#[derive(Clone, Debug, PartialEq, Eq)]
pub struct Unread {
    pub line: usize,
    /// The word as it stands there; empty if the line ends too early.
    pub word: String,
    pub expected: &'static str,
}

impl Unread {
    /// What stands there, and what was expected.
    pub fn why(&self) -> String {
        match self.word.is_empty() {
            true => format!("the line ends, expected {}", self.expected),
            false => format!("'{}', expected {}", self.word, self.expected),
        }
    }
}

impl fmt::Display for Unread {
    fn fmt(&self, f: &mut fmt::Formatter) -> fmt::Result {
        write!(f, "line {}: {}", self.line, self.why())
    }
}

impl Error for Unread {}

const A_BYTE: &str = "a byte in hex, 00 to FF, or as 32h, 0x32, 50d or 50ms";
const A_CONTROLLER: &str = "a controller, 0 or 1";
const A_LEVEL: &str = "a level, 0 or 1";
const A_PART: &str = "the name of a part, PCA9641 or TPT29641";
const A_PLACE: &str = "a place in decimal, 0 to 255";
const A_COUNT: &str = "a count of ticks in decimal, 1 to 4096, or the line's end";
const THE_END: &str = "the line's end";

/// The words of one line that are still to be read.
pub struct Words<'a> {
    pub line: usize,
    words: std::str::SplitWhitespace<'a>,
    /// The bytes that were read, as they stand there.
    pub bytes: Vec<Byte>,
}

/// Goes through a text line by line, without its comments, and gives the number of the last line.
pub fn each_line(
    text: &[u8],
    mut take: impl FnMut(&mut Words) -> Result<(), Unread>,
) -> Result<usize, Unread> {
    let text = text.strip_prefix(b"\xEF\xBB\xBF").unwrap_or(text);
    let mut last = 0;
    for (place, line) in text.split(|&byte| byte == b'\n').enumerate() {
        let code = line.split(|&byte| byte == b'#').next().unwrap_or_default();
        let code = String::from_utf8_lossy(code);
        last = place + 1;
        take(&mut Words { line: last, words: code.split_whitespace(), bytes: vec![] })?;
    }
    Ok(last)
}

impl<'a> Words<'a> {
    /// The next word as it stands there, or `None` at the line's end.
    pub fn word(&mut self) -> Option<&'a str> {
        self.words.next()
    }

    /// True at the line's end.
    pub fn is_empty(&self) -> bool {
        self.words.clone().next().is_none()
    }

    pub fn unread(&self, word: &str, expected: &'static str) -> Unread {
        Unread { line: self.line, word: shown(word), expected }
    }

    /// The next word, as what it is expected to be.
    pub fn next<T>(
        &mut self,
        expected: &'static str,
        read: impl Fn(&str) -> Option<T>,
    ) -> Result<T, Unread> {
        let word = self.words.next().unwrap_or_default();
        read(word).ok_or_else(|| self.unread(word, expected))
    }

    pub fn byte(&mut self) -> Result<u8, Unread> {
        let byte = self.next(A_BYTE, bytes::read)?;
        let value = byte.value;
        self.bytes.push(byte);
        Ok(value)
    }

    pub fn part(&mut self) -> Result<Part, Unread> {
        self.next(A_PART, Part::named)
    }

    pub fn place(&mut self) -> Result<u8, Unread> {
        self.next(A_PLACE, |word| {
            let digits = word.bytes().all(|byte| byte.is_ascii_digit());
            word.parse().ok().filter(|_| digits)
        })
    }

    fn master(&mut self) -> Result<Master, Unread> {
        self.next(A_CONTROLLER, |word| match word {
            "0" => Some(Master::Zero),
            "1" => Some(Master::One),
            _ => None,
        })
    }

    fn level(&mut self) -> Result<bool, Unread> {
        self.next(A_LEVEL, |word| match word {
            "0" => Some(false),
            "1" => Some(true),
            _ => None,
        })
    }

    /// A count of ticks. None at all is one tick.
    fn ticks(&mut self) -> Result<usize, Unread> {
        let word = self.words.next().unwrap_or("1");
        let digits = word.bytes().all(|byte| byte.is_ascii_digit());
        let count = word.parse().ok().filter(|count| digits && (1..=MOST_EVENTS).contains(count));
        count.ok_or_else(|| self.unread(word, A_COUNT))
    }

    pub fn end(&mut self) -> Result<(), Unread> {
        match self.words.next() {
            None => Ok(()),
            Some(word) => Err(self.unread(word, THE_END)),
        }
    }

    /// The event that begins with this word, and how often it comes. If no event does, this was
    /// expected.
    pub fn events(&mut self, word: &str, expected: &'static str) -> Result<(Event, usize), Unread> {
        let times = match small(word).as_ref() {
            "tick" => self.ticks()?,
            _ => 1,
        };
        Ok((self.event(word, expected)?, times))
    }

    fn event(&mut self, word: &str, expected: &'static str) -> Result<Event, Unread> {
        Ok(match small(word).as_ref() {
            "command" => Event::Command { master: self.master()?, code: self.byte()? },
            "write" => Event::Write { master: self.master()?, value: self.byte()? },
            "read" => Event::Read { master: self.master()? },
            "stop" => Event::Stop { master: self.master()? },
            "pair" => Event::Pair { value0: self.byte()?, value1: self.byte()? },
            "lines" => {
                Event::Lines { scl: self.level()?, sda: self.level()?, int_in: self.level()? }
            }
            "tick" => Event::Tick,
            "pulse" => Event::Pulse { sda: self.level()? },
            "reset" => Event::Reset,
            "general" => Event::GeneralCall { master: self.master()?, code: self.byte()? },
            "raw" => Event::Raw([self.byte()?, self.byte()?, self.byte()?, self.byte()?]),
            _ => return Err(self.unread(word, expected)),
        })
    }
}
