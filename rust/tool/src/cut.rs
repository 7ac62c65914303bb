//! Where a capture was refused with 12. The library gives the number alone, so it is asked again,
//! about one bus at a time and about the beginnings of it.

use std::fmt;

use gunwaleish::{import_capture, Master, Refusal, MOST_SAMPLES};

/// What was seen on one bus.
#[derive(Clone, Copy, Debug, PartialEq, Eq)]
pub enum Cut {
    /// A START or STOP inside a byte, at this sample, counted from 0.
    Condition { bus: Master, sample: usize, is_start: bool },
    /// The capture ends inside a byte.
    End { bus: Master },
}

impl fmt::Display for Cut {
    fn fmt(&self, f: &mut fmt::Formatter) -> fmt::Result {
        match self {
            Cut::Condition { bus, sample, is_start } => {
                let condition = if *is_start { "START" } else { "STOP" };
                write!(f, "bus {bus}: {condition} inside a byte at sample {sample}")
            }
            Cut::End { bus } => write!(f, "bus {bus}: the capture ends inside a byte"),
        }
    }
}

impl Cut {
    /// The same with its sample counted elsewhere: in a capture of which some samples were left out.
    pub fn at(self, places: &dyn Fn(usize) -> u64) -> Cut {
        match self {
            Cut::Condition { bus, sample, is_start } => {
                Cut::Condition { bus, sample: places(sample) as usize, is_start }
            }
            end => end,
        }
    }
}

/// What a capture is refused for, bus by bus, and of each bus what comes first.
pub fn cuts(samples: &[u8], address: u8) -> Vec<Cut> {
    Master::BOTH.into_iter().filter_map(|bus| cut(samples, address, bus)).collect()
}

fn cut(samples: &[u8], address: u8, bus: Master) -> Option<Cut> {
    let (places, levels) = changes(samples, bus).into_iter().unzip();
    let lines = Lines { places, levels, address };
    if !lines.is_refused(&lines.levels) {
        return None;
    }
    let most = lines.levels.len().min(MOST_SAMPLES - 2 * CLOCKS);
    if !lines.is_broken(most) {
        // Where the changes alone fill a capture, the last ones cannot be asked about.
        return (most == lines.levels.len()).then_some(Cut::End { bus });
    }
    // Once a byte is cut, it is so in every longer beginning.
    let (mut whole, mut broken) = (0, most);
    while whole + 1 < broken {
        let middle = (whole + broken) / 2;
        match lines.is_broken(middle) {
            true => broken = middle,
            false => whole = middle,
        }
    }
    let (sample, level) = (lines.places[whole], lines.levels[whole]);
    Some(Cut::Condition { bus, sample, is_start: level & SDA == 0 })
}

const SCL: u8 = 1;
const SDA: u8 = 2;
/// Both lines of master 1's bus.
const OTHER: u8 = 12;
/// After so many clocks more, any byte was complete once.
const CLOCKS: usize = 8;

/// One bus in bits 0 and 1, and the other one idle: the samples in which it changes, each with its
/// place. The samples between them say nothing.
fn changes(samples: &[u8], bus: Master) -> Vec<(usize, u8)> {
    let level = |sample: &u8| sample >> (2 * bus.number()) & (SCL | SDA) | OTHER;
    let mut changes: Vec<(usize, u8)> = samples.iter().map(level).enumerate().collect();
    changes.dedup_by_key(|change| change.1);
    changes
}

struct Lines {
    places: Vec<usize>,
    levels: Vec<u8>,
    address: u8,
}

impl Lines {
    fn is_refused(&self, levels: &[u8]) -> bool {
        import_capture(levels, self.address) == Err(Refusal::ByteCut)
    }

    /// True if a byte is cut in the first so many changes: then they are refused, however many
    /// clocks come after them. A byte that is only not complete yet becomes complete.
    fn is_broken(&self, count: usize) -> bool {
        let mut levels = self.levels[..count].to_vec();
        let last = levels.last().copied().unwrap_or(SCL | SDA | OTHER);
        (0..=CLOCKS).all(|_| {
            let refused = self.is_refused(&levels);
            levels.extend([last & !SCL, last | SCL]);
            refused
        })
    }
}
