//! The bus share report (request #112): the ticks that each controller owned the bus, was connected
//! and waited, over many traces.
//!
//! `walk` finds the files, `stream` has the traces of one input, `words` the text, `rows` the rows for
//! other programs, and `kept` totals in a file. What a trace adds is the library's `Totals`. Each trace
//! has its own, which are joined to its thread's, and those at the end. Up to 65,535 traces are handed to
//! the threads, always the first ones, so that the totals are the same whoever takes which.

pub mod kept;
pub mod progress;
pub mod rows;
pub mod stream;
pub mod words;

use std::collections::BTreeMap;
use std::path::{Path, PathBuf};
use std::sync::atomic::{AtomicUsize, Ordering};
use std::thread;

use gunwaleish::{Master, Refusal, Totals, MOST_TRACE};

use crate::each::refused;
use crate::failure::Failure;
use crate::files::{self, Input};
use progress::Progress;

/// So many traces are counted, refused ones included.
pub const MOST_TRACES: usize = gunwaleish::MOST_TRACES as usize;

/// What came of the traces.
#[derive(Clone, Debug, Default, PartialEq, Eq)]
pub struct Counted {
    pub totals: Totals,
    /// Each trace by its place, with its own totals; none where totals were kept and joined.
    pub each: Vec<(usize, Totals)>,
    /// The refused ones by their places among the files or in the stream, from 0.
    pub refused: Vec<(usize, Refusal)>,
    /// Why the first one of each number is refused, with its place.
    pub reasons: BTreeMap<u8, (usize, String)>,
    /// How many came past the most that are counted.
    pub past: usize,
}

impl Counted {
    /// Adds the trace of this place. `why` tells why it is refused, if it is.
    fn add(&mut self, place: usize, trace: &[u8], why: impl Fn(Refusal) -> String) {
        let mut own = Totals::new();
        let added = own.add(trace);
        // No more are handed out than can be counted, so they are always joined.
        let joined = self.totals.join(&own);
        if let Err(refusal) = added.and(joined) {
            self.refused.push((place, refusal));
            // Places only rise, so the first one stays.
            self.reasons.entry(refusal.number()).or_insert_with(|| (place, why(refusal)));
        }
        self.each.push((place, own));
    }

    fn join(&mut self, other: Counted) -> Result<(), Failure> {
        let joined = self.totals.join(&other.totals);
        joined.map_err(|refusal| Failure::Refused(format!("the totals: {refusal}")))?;
        self.each.extend(other.each);
        self.each.sort_by_key(|&(place, _)| place);
        self.refused.extend(other.refused);
        self.refused.sort_by_key(|&(place, _)| place);
        for (number, reason) in other.reasons {
            match self.reasons.get(&number) {
                Some(before) if before.0 < reason.0 => {}
                _ => _ = self.reasons.insert(number, reason),
            }
        }
        Ok(())
    }

    /// The place of the first trace that has this controller's longest wait, if it waited.
    pub fn longest_in(&self, master: Master) -> Option<usize> {
        let most = Some(self.totals.longest(master)).filter(|&ticks| ticks > 0)?;
        let first = self.each.iter().find(|(_, own)| own.longest(master) == most);
        first.map(|&(place, _)| place)
    }

    /// True if traces were counted that were not refused.
    pub fn has_taken(&self) -> bool {
        let refused: u64 = kept::REFUSALS.map(|number| self.totals.refused(number)).iter().sum();
        self.totals.traces() > refused
    }

    /// How many traces may still come.
    fn room(&self) -> usize {
        MOST_TRACES.saturating_sub(self.totals.traces() as usize)
    }
}

/// The totals over files, each a trace, and why some could not be read.
pub fn of_files(
    files: &[PathBuf],
    threads: usize,
    progress: &Progress,
) -> Result<(Counted, Vec<Failure>), Failure> {
    let mut whole = Counted::default();
    let mut unread = vec![];
    let mut from = 0;
    // A file that cannot be read leaves its room to a later one.
    while from < files.len() && whole.room() > 0 {
        let to = files.len().min(from + whole.room());
        for part in in_threads(files, from..to, threads, progress) {
            whole.join(part.counted)?;
            unread.extend(part.unread);
        }
        from = to;
    }
    whole.past = files.len() - from;
    unread.sort_by_key(|&(place, _)| place);
    Ok((whole, unread.into_iter().map(|(_, failure)| failure).collect()))
}

/// The totals over traces that were read already.
pub fn of_inputs(inputs: &[Input]) -> Counted {
    let mut whole = Counted::default();
    for (place, input) in inputs.iter().enumerate().take(MOST_TRACES) {
        whole.add(place, &input.bytes, |refusal| refused(input, refusal));
    }
    whole.past = inputs.len().saturating_sub(MOST_TRACES);
    whole
}

/// One thread's part.
#[derive(Default)]
struct Part {
    counted: Counted,
    unread: Vec<(usize, Failure)>,
}

/// Each thread takes the next file that none has.
fn in_threads(
    files: &[PathBuf],
    places: std::ops::Range<usize>,
    threads: usize,
    progress: &Progress,
) -> Vec<Part> {
    let next = AtomicUsize::new(places.start);
    let work = || {
        let mut part = Part::default();
        loop {
            let place = next.fetch_add(1, Ordering::Relaxed);
            if place >= places.end {
                return part;
            }
            part.take(place, &files[place]);
            progress.one_more();
        }
    };
    thread::scope(|scope| {
        let threads = threads.clamp(1, places.len().max(1));
        let running: Vec<_> = (0..threads).map(|_| scope.spawn(work)).collect();
        running.into_iter().map(ended).collect()
    })
}

impl Part {
    fn take(&mut self, place: usize, file: &Path) {
        match files::read(file, MOST_TRACE) {
            Ok(input) => {
                self.counted.add(place, &input.bytes, |refusal| refused(&input, refusal));
            }
            Err(failure) => self.unread.push((place, failure)),
        }
    }
}

/// What a thread gives at its end. A panic in it goes on here.
fn ended<T>(running: thread::ScopedJoinHandle<T>) -> T {
    running.join().unwrap_or_else(|panic| std::panic::resume_unwind(panic))
}
