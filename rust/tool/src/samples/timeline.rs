//! Levels by their times, turned into samples: a level lasts until the next one comes.

use std::error::Error;
use std::fmt;

use super::piece::{Piece, Taker};
use super::rate::sample_at;
use crate::failure::Failure;

/// Samples out of levels with times.
#[derive(Debug)]
pub struct Timeline {
    /// Without a rate each time is one sample.
    rate: Option<u64>,
    /// The first time, which is that of sample 0.
    origin: Option<i128>,
    /// The time that was last said, and the level there.
    time: i128,
    level: u8,
    /// The first sample that was not given on yet; the level belongs to it or to a later one.
    next: u64,
    /// The sample of the time that was last said.
    at: u64,
    /// A level came since the last sample was given on.
    changed: bool,
    /// A later time stands in the same sample, so that the level there would be lost.
    crowding: bool,
    /// So many levels were lost, since a later one stands in their sample.
    pub crowded: u64,
}

/// Why a time is none.
#[derive(Clone, Copy, Debug, PartialEq, Eq)]
pub enum Wrong {
    /// It is before the last one.
    Earlier,
    /// No number of a sample is so high.
    TooLate,
}

impl fmt::Display for Wrong {
    fn fmt(&self, f: &mut fmt::Formatter) -> fmt::Result {
        f.write_str(match self {
            Wrong::Earlier => "this time is before the last one",
            Wrong::TooLate => "this time is too late to be a sample's",
        })
    }
}

impl Error for Wrong {}

impl Timeline {
    pub fn new(rate: Option<u64>, level: u8) -> Timeline {
        Timeline {
            rate,
            origin: None,
            time: 0,
            level,
            next: 0,
            at: 0,
            changed: false,
            crowding: false,
            crowded: 0,
        }
    }

    pub fn level(&self) -> u8 {
        self.level
    }

    /// A time, in attoseconds: what stood until then is given on.
    pub fn time(&mut self, time: i128, to: &mut dyn Taker) -> Result<Result<(), Wrong>, Failure> {
        let Some(origin) = self.origin else {
            (self.origin, self.time) = (Some(time), time);
            return Ok(Ok(()));
        };
        if time < self.time {
            return Ok(Err(Wrong::Earlier));
        }
        let at = match self.rate {
            Some(rate) => time.checked_sub(origin).and_then(|since| sample_at(since, rate)),
            None => Some(self.at + u64::from(time > self.time)),
        };
        let Some(at) = at else {
            return Ok(Err(Wrong::TooLate));
        };
        self.crowding = at == self.next && self.changed && time > self.time;
        self.time = time;
        self.at = at;
        if at > self.next {
            to.take(Piece::Level(self.level, at - self.next))?;
            self.next = at;
            self.changed = false;
        }
        Ok(Ok(()))
    }

    /// The level from the time on that was last said.
    pub fn set(&mut self, level: u8) {
        if self.crowding && level != self.level {
            (self.crowded, self.crowding) = (self.crowded + 1, false);
        }
        self.level = level;
        self.changed = true;
    }

    /// The end: the sample of the last time is one, if a level came with it.
    pub fn end(&mut self, to: &mut dyn Taker) -> Result<(), Failure> {
        match self.changed {
            true => {
                self.changed = false;
                self.next += 1;
                to.take(Piece::Level(self.level, 1))
            }
            false => Ok(()),
        }
    }
}
