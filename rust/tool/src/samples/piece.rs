//! Samples as they come out of a file, what is known of them before, and who takes them.

use super::form::Form;
use super::{channels, rate};
use crate::arguments::Arguments;
use crate::failure::Failure;

/// The bits of a sample that are the bus below.
pub const BELOW: u8 = 0x70;
/// A sample with all lines high, as those are that nobody pulls or that a file does not have.
pub const HIGH: u8 = 0x7F;

/// What is said of a file beside what stands in it.
#[derive(Clone, Debug, Default, PartialEq, Eq)]
pub struct Said {
    /// Samples a second, after --samplerate.
    pub rate: Option<u64>,
    /// The names of the lines, after --channels, by their bits; `None` for one that is not wired.
    pub channels: Option<Vec<Option<String>>>,
}

impl Said {
    /// What the command line says, after --samplerate and --channels.
    pub fn read(command: &str, arguments: &Arguments) -> Result<Said, Failure> {
        let word = |name| arguments.options.get(name).and_then(|words| words.first());
        let wrong = |what: String| {
            Failure::Wrong(format!("{what}; gunwaleish {command} --help tells more"))
        };
        let rate = word("--samplerate").map(|word| {
            let none =
                || format!("'{}' is no rate, expected one such as 1M or 500k", word.escape_debug());
            rate::read_rate(word).ok_or_else(none)
        });
        let channels = word("--channels").map(|word| channels::read_names(word));
        Ok(Said {
            rate: rate.transpose().map_err(wrong)?,
            channels: channels.transpose().map_err(|what| wrong(what.to_string()))?,
        })
    }
}

/// What is known of a file before its first sample.
#[derive(Clone, Copy, Debug, PartialEq, Eq)]
pub struct Head {
    pub form: Form,
    /// Samples a second, as they are said or as the file has them.
    pub rate: Option<u64>,
    /// Lines of the bus below are named in the file. Raw samples do not tell.
    pub below: bool,
}

/// Samples as they come out of a file.
#[derive(Clone, Copy, Debug, PartialEq, Eq)]
pub enum Piece<'a> {
    Samples(&'a [u8]),
    /// This one, so many times.
    Level(u8, u64),
}

/// Who takes the samples of a file.
pub trait Taker {
    /// Before the first sample, once.
    fn begin(&mut self, head: &Head) -> Result<(), Failure>;
    fn take(&mut self, piece: Piece) -> Result<(), Failure>;
}
