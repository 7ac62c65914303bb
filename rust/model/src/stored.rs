//! A stored set of traces, good and damaged, for a program that lists many.
//!
//! Its input is each trace after its length in two bytes, low first. Its output is the listings
//! one after the other. `cargo run --bin stored` writes both files. A test holds the files to
//! this list, so they cannot drift apart.

use crate::damage::{damage, Damage, ALL_DAMAGES};
use crate::report::input_of;
use crate::rng::Rng;
use crate::trace::{listing, MOST_EVENTS};
use crate::traces::{seed_of, trace, trace_of};

/// The run that all seeds here belong to.
const RUN: u64 = 14;

/// The sample traces of the folder `traces/`. They stand first in the set.
const SAMPLES: [&[u8]; 8] = [
    include_bytes!("../../../traces/m1.trace"),
    include_bytes!("../../../traces/box14-rt00.trace"),
    include_bytes!("../../../traces/box14-rt50.trace"),
    include_bytes!("../../../traces/hung-bus.trace"),
    include_bytes!("../../../traces/mail.trace"),
    include_bytes!("../../../traces/pair.trace"),
    include_bytes!("../../../traces/refused-cut.trace"),
    include_bytes!("../../../traces/refused-strap.trace"),
];

pub fn stored_traces() -> Vec<Vec<u8>> {
    let mut all = vec![vec![]];
    all.extend(SAMPLES.map(|sample| sample.to_vec()));
    all.extend((0..3).map(|place| trace(seed_of(RUN, place), 0)));
    all.extend((0..120).map(short));
    // A bus hangs only in the long ones.
    let lengths = [700, 900, 1100, 1300, 1500];
    all.extend((200..).zip(lengths).map(|(place, length)| trace(seed_of(RUN, place), length)));
    all.push(trace(seed_of(RUN, 300), MOST_EVENTS));
    all.push(trace_of([0; 4], &[[6, 0, 0, 0]; MOST_EVENTS + 1]));
    all.extend((400..415).flat_map(damaged));
    all.extend((500..530).map(any_bytes));
    all
}

/// A good trace of 1 to 60 events.
fn short(place: u64) -> Vec<u8> {
    let seed = seed_of(RUN, 100 + place);
    trace(seed, Rng::new(seed).between(1, 60) as usize)
}

/// One trace in every kind of damage. A listing always has room, so that kind is left out.
fn damaged(place: u64) -> Vec<Vec<u8>> {
    let mut rng = Rng::new(seed_of(RUN, place));
    let good = trace(seed_of(RUN, place), rng.between(1, 12) as usize);
    let kinds = ALL_DAMAGES.into_iter().filter(|kind| *kind != Damage::RoomTooSmall);
    kinds.map(|kind| damage(&mut rng, &good, kind).trace).collect()
}

/// Up to 40 bytes that were never a trace. Small bytes come further than any would.
fn any_bytes(place: u64) -> Vec<u8> {
    let mut rng = Rng::new(seed_of(RUN, place));
    let length = rng.between(1, 40);
    let mut bytes: Vec<u8> = (0..length).map(|_| rng.byte() % 5).collect();
    bytes[0] = rng.pick(&[4, 4, 4, 255]);
    bytes
}

/// The input: the length in two bytes, low first, then the trace.
pub fn input() -> Vec<u8> {
    input_of(&stored_traces())
}

/// The output: every listing, in the same order.
pub fn output() -> String {
    stored_traces().iter().map(|trace| listing(trace)).collect()
}
