//! A capture as `import` takes it: of any length, as long as its changes are few enough.

use gunwaleish::MOST_SAMPLES;

use super::form::Form;
use super::piece::{Head, Piece, Taker, BELOW};
use crate::failure::Failure;

/// The lines of both buses above.
const ABOVE: u8 = 0x0F;
/// By so many bytes a file that is no capture is known.
const START: usize = MOST_SAMPLES + 1;

/// A capture, of which a sample that repeats the one before on both buses says nothing.
#[derive(Clone, Debug, Default, PartialEq, Eq)]
pub struct Taken {
    pub form: Option<Form>,
    /// How many samples there are.
    pub count: u64,
    /// All of them, as long as they are no more than a capture may have.
    whole: Vec<u8>,
    /// Those that change one of the lines above, up to one more than a capture may have, and their
    /// places.
    changes: Vec<u8>,
    places: Vec<u64>,
    /// The bus below is watched too.
    pub below: bool,
    /// The samples in which one of its lines changes, if it is; before the first one all are high.
    pub lines: Vec<(u64, u8)>,
    last: u8,
}

impl Taken {
    /// Before the first sample. `below` says that bits 4 to 6 of raw samples are the bus below.
    pub fn new(below: bool) -> Taken {
        Taken { below, ..Taken::default() }
    }

    /// The samples as the library takes them: all, or where these are too many those with a change.
    pub fn samples(&self) -> &[u8] {
        match self.is_whole() {
            true => &self.whole,
            false => &self.changes,
        }
    }

    /// True if no sample was left out.
    pub fn is_whole(&self) -> bool {
        self.count <= MOST_SAMPLES as u64
    }

    /// Where one of those samples stands in the capture.
    pub fn place(&self, sample: usize) -> u64 {
        match self.is_whole() {
            true => sample as u64,
            false => self.places.get(sample).copied().unwrap_or(self.count),
        }
    }

    /// The beginning of a file with one byte a sample, by which another file is known.
    pub fn start(&self) -> &[u8] {
        match self.form {
            Some(Form::Raw) => &self.whole,
            _ => &[],
        }
    }

    fn take_level(&mut self, level: u8, count: u64) {
        let room = START.saturating_sub(self.whole.len());
        let more = usize::try_from(count).map_or(room, |count| count.min(room));
        self.whole.extend(std::iter::repeat_n(level, more));
        let same = self.changes.last().is_some_and(|last| (last ^ level) & ABOVE == 0);
        if !same && self.changes.len() <= MOST_SAMPLES {
            self.changes.push(level);
            self.places.push(self.count);
        }
        let before = if self.count == 0 { BELOW } else { self.last };
        if self.below && (before ^ level) & BELOW != 0 {
            self.lines.push((self.count, level));
        }
        self.last = level;
        self.count = self.count.saturating_add(count);
    }
}

impl Taker for Taken {
    fn begin(&mut self, head: &Head) -> Result<(), Failure> {
        self.form = Some(head.form);
        self.below |= head.below;
        Ok(())
    }

    fn take(&mut self, piece: Piece) -> Result<(), Failure> {
        match piece {
            Piece::Samples(samples) => {
                samples.iter().for_each(|&sample| self.take_level(sample, 1))
            }
            Piece::Level(level, count) => self.take_level(level, count),
        }
        Ok(())
    }
}
