//! A capture that was played, and all that is true of it.

use super::bus::{Fault, ReadByte, Setting, Sign};
use super::chip::Flaw;

/// A capture, and all that is true of it.
#[derive(Clone, Debug, PartialEq, Eq)]
pub struct Played {
    pub setting: Setting,
    pub flaw: Flaw,
    /// So many samples after each TICK the chip's own millisecond ended.
    pub phase: u64,
    pub samples: Vec<u8>,
    /// Each event with its sample, in the order in which they stand.
    pub events: Vec<(u64, [u8; 4])>,
    pub reads: Vec<ReadByte>,
    pub faults: Vec<Fault>,
    /// All conditions and bytes of each bus from START to STOP, whoever they are for.
    pub signs: [Vec<(u64, Sign)>; 2],
}

impl Played {
    /// The first READ that no right device answers so, by its sample.
    pub fn first_wrong(&self) -> Option<u64> {
        self.reads.iter().find(|read| read.is_wrong()).map(|read| read.sample)
    }

    /// The same capture ending before this sample.
    pub fn cut(&self, end: usize) -> Played {
        let last = end as u64;
        let mut cut = self.clone();
        cut.samples.truncate(end);
        cut.events.retain(|(sample, _)| *sample < last);
        cut.reads.retain(|read| read.sample < last);
        cut.faults.retain(|fault| fault.sample < last);
        cut.signs.iter_mut().for_each(|bus| bus.retain(|(sample, _)| *sample < last));
        cut
    }
}
