//! The input of the report program: traces one after the other, each after its length in two bytes,
//! low first. One thread reads it in batches, of which a few stand at a time, so that a long input
//! needs no more memory than a short one.

use std::io::{self, Read};
use std::ops::Range;
use std::sync::mpsc::{sync_channel, Receiver, SyncSender};
use std::sync::Mutex;
use std::thread;

use super::progress::Progress;
use super::{ended, Counted, MOST_TRACES};
use crate::failure::Failure;

/// A batch is handed on when it has so many bytes or traces.
const FULL_BYTES: usize = 1 << 18;
const FULL_TRACES: usize = 1 << 10;

/// Neighbours in the input.
#[derive(Default)]
struct Batch {
    /// The place of the first one, from 0.
    first: usize,
    bytes: Vec<u8>,
    /// Where each trace ends.
    ends: Vec<usize>,
}

impl Batch {
    fn is_full(&self) -> bool {
        self.bytes.len() >= FULL_BYTES || self.ends.len() >= FULL_TRACES
    }

    fn traces(&self) -> impl Iterator<Item = (usize, &[u8])> {
        let starts = [0].into_iter().chain(self.ends.iter().copied());
        let traces = starts.zip(&self.ends).map(|(start, &end)| &self.bytes[start..end]);
        (self.first..).zip(traces)
    }
}

/// The totals over an input with this name.
pub fn of_stream(
    from: impl Read,
    name: &str,
    threads: usize,
    progress: &Progress,
) -> Result<Counted, Failure> {
    let (to, batches) = sync_channel(threads);
    let batches = Mutex::new(batches);
    let (read, parts) = thread::scope(|scope| {
        let work = || count_batches(&batches, name, progress);
        let running: Vec<_> = (0..threads.max(1)).map(|_| scope.spawn(work)).collect();
        let read = hand_out(from, to);
        (read, running.into_iter().map(ended).collect::<Vec<Counted>>())
    });
    let unread = |error| Failure::unread(name, error);
    let mut whole = Counted { past: read.map_err(unread)?, ..Counted::default() };
    for part in parts {
        whole.join(part)?;
    }
    Ok(whole)
}

/// How the trace of a place is called, from 1, in an input with this name.
pub fn name_in(input: &str, place: usize) -> String {
    format!("{input}, trace {}", place + 1)
}

/// One thread's part: batches, until there are no more.
fn count_batches(batches: &Mutex<Receiver<Batch>>, name: &str, progress: &Progress) -> Counted {
    let mut counted = Counted::default();
    // Locked only while a batch is taken.
    let next = || batches.lock().ok()?.recv().ok();
    while let Some(batch) = next() {
        for (place, trace) in batch.traces() {
            let why = |refusal| format!("{}: {refusal}", name_in(name, place));
            counted.add(place, trace, why);
            progress.one_more();
        }
    }
    counted
}

/// Hands the first traces out, up to the most, and gives how many came after them.
fn hand_out(from: impl Read, to: SyncSender<Batch>) -> io::Result<usize> {
    let mut from = io::BufReader::with_capacity(FULL_BYTES, from);
    let mut batch = Batch::default();
    let places: Range<usize> = 0..MOST_TRACES;
    for place in places {
        if !read_trace(&mut from, &mut batch.bytes)? {
            break;
        }
        batch.ends.push(batch.bytes.len());
        if batch.is_full() {
            let full =
                std::mem::replace(&mut batch, Batch { first: place + 1, ..Batch::default() });
            hand_on(full, &to)?;
        }
    }
    hand_on(batch, &to)?;
    let mut past = 0;
    let mut passed_over = vec![];
    while read_trace(&mut from, &mut passed_over)? {
        past += 1;
        passed_over.clear();
    }
    Ok(past)
}

fn hand_on(batch: Batch, to: &SyncSender<Batch>) -> io::Result<()> {
    to.send(batch).map_err(|_| io::Error::other("nobody counts its traces"))
}

/// Reads a trace behind these bytes, or says that there is none. An input that ends inside a length or
/// a trace has one trace more, which is refused with 5; so is a trace of no bytes, which is put there.
fn read_trace(from: &mut impl Read, bytes: &mut Vec<u8>) -> io::Result<bool> {
    let start = bytes.len();
    let found = from.by_ref().take(2).read_to_end(bytes)?;
    let length = bytes[start..].try_into().map_or(0, u16::from_le_bytes);
    bytes.truncate(start);
    let there = from.by_ref().take(length.into()).read_to_end(bytes)?;
    if there < length.into() {
        bytes.truncate(start);
    }
    Ok(found > 0)
}
