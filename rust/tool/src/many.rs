//! Many traces, run on all cores.
//!
//! A thread takes the next trace that nobody has taken. It has one buffer for the traces it reads
//! and one for their answers, and keeps its own tally; at the end the tallies are added.
//! A row a trace is kept where it is asked for.

use std::collections::BTreeMap;
use std::fs::File;
use std::io::{self, Read};
use std::num::NonZero;
use std::path::{Path, PathBuf};
use std::sync::atomic::{AtomicUsize, Ordering};
use std::sync::mpsc::{channel, RecvTimeoutError, Sender};
use std::thread;
use std::time::Duration;

use gunwaleish::{Outcome, Report, MOST_EVENTS, MOST_TRACE};

use crate::each::refused;
use crate::failure::Failure;
use crate::files::{is_standard, name_of, Input};

/// What came of some traces.
#[derive(Debug, Default, PartialEq, Eq)]
pub struct Tally {
    /// The traces that were read, refused ones among them.
    pub traces: usize,
    /// The events of the accepted ones.
    pub events: u64,
    /// How many were refused, by the number of the refusal.
    pub refused: BTreeMap<u8, usize>,
    /// Why a trace is refused or cannot be read, with its place among all.
    pub failures: Vec<(usize, Failure)>,
    /// What came of each, with its place, where rows are asked for.
    pub rows: Vec<(usize, Came)>,
}

/// What came of one trace.
#[derive(Clone, Copy, Debug, PartialEq, Eq)]
pub enum Came {
    /// It ran, and so many of its events were refused.
    Ran { report: Report, refused: usize },
    /// It is refused, with this number.
    Refused(u8),
    /// It cannot be read.
    Unread,
}

impl Tally {
    pub fn add(&mut self, other: Tally) {
        self.traces += other.traces;
        self.events += other.events;
        for (number, count) in other.refused {
            *self.refused.entry(number).or_default() += count;
        }
        self.failures.extend(other.failures);
        self.rows.extend(other.rows);
    }
}

/// As many threads as the machine has cores.
pub fn cores() -> usize {
    thread::available_parallelism().map_or(1, NonZero::get)
}

/// Runs these traces on so many threads, with a row for each or without. Every now and then it says how
/// many are done.
pub fn run_all(
    paths: &[PathBuf],
    threads: usize,
    rows: bool,
    mut progress: impl FnMut(usize),
) -> Tally {
    let (taken, done) = (AtomicUsize::new(0), AtomicUsize::new(0));
    let mut all = thread::scope(|scope| {
        // A worker drops its end when it is through; nothing is ever sent.
        let (end, ended) = channel::<()>();
        let workers: Vec<_> = (0..threads.clamp(1, paths.len().max(1)))
            .map(|_| (end.clone(), &taken, &done))
            .map(|(end, taken, done)| scope.spawn(move || work(paths, taken, rows, done, end)))
            .collect();
        drop(end);
        while ended.recv_timeout(Duration::from_millis(200)) == Err(RecvTimeoutError::Timeout) {
            progress(done.load(Ordering::Relaxed));
        }
        let mut all = Tally::default();
        for worker in workers {
            match worker.join() {
                Ok(tally) => all.add(tally),
                Err(panic) => std::panic::resume_unwind(panic),
            }
        }
        all
    });
    all.failures.sort_by_key(|(place, _)| *place);
    all.rows.sort_by_key(|(place, _)| *place);
    all
}

/// One thread's traces, until none is left.
fn work(
    paths: &[PathBuf],
    taken: &AtomicUsize,
    rows: bool,
    done: &AtomicUsize,
    _end: Sender<()>,
) -> Tally {
    let mut tally = Tally::default();
    let mut trace = Vec::with_capacity(MOST_TRACE + 1);
    let mut answers = vec![0; 4 * MOST_EVENTS];
    loop {
        let place = taken.fetch_add(1, Ordering::Relaxed);
        let Some(path) = paths.get(place) else {
            return tally;
        };
        let came = run_one(path, place, &mut trace, &mut answers, &mut tally);
        tally.rows.extend(rows.then_some((place, came)));
        done.fetch_add(1, Ordering::Relaxed);
    }
}

fn run_one(
    path: &Path,
    place: usize,
    trace: &mut Vec<u8>,
    answers: &mut [u8],
    tally: &mut Tally,
) -> Came {
    if let Err(error) = read_into(path, trace) {
        let failure = Failure::unread(name_of(path), error);
        tally.failures.push((place, failure));
        return Came::Unread;
    }
    tally.traces += 1;
    match gunwaleish::run_trace(trace, answers) {
        Ok(report) => {
            tally.events += report.events as u64;
            let first = answers[..4 * report.events].iter().step_by(4);
            let refused = first.filter(|&&number| Outcome::of(number).is_refused()).count();
            Came::Ran { report, refused }
        }
        Err(refusal) => {
            *tally.refused.entry(refusal.number()).or_default() += 1;
            let input = Input { name: name_of(path), bytes: trace.clone() };
            tally.failures.push((place, Failure::Refused(refused(&input, refusal))));
            Came::Refused(refusal.number())
        }
    }
}

/// Of a longer file one byte more than a trace may have, which shows that there is more.
fn read_into(path: &Path, trace: &mut Vec<u8>) -> io::Result<()> {
    trace.clear();
    let most = MOST_TRACE as u64 + 1;
    match is_standard(path) {
        true => io::stdin().lock().take(most).read_to_end(trace)?,
        false => File::open(path)?.take(most).read_to_end(trace)?,
    };
    Ok(())
}
