//! The totals of the bus share report on both sides (document 02, #112).

use gunwaleish::boundary;
use model::report::input_of;
use model::rng::Rng;
use model::share::{MOST_TRACES, NUMBERS};
use model::shares::{any_numbers, any_trace};
use model::stored::stored_traces;
use model::{share_add, share_join};

use crate::figures::{differ, Difference, Figures};

/// What each number of the row is.
const NAMES: [&str; NUMBERS] = [
    "traces",
    "ticks",
    "owned by 0",
    "owned by 1",
    "owned by none",
    "connected 0",
    "connected 1",
    "waited 0",
    "waited 1",
    "longest wait of 0",
    "longest wait of 1",
    "refused with 3",
    "refused with 5",
    "refused with 6",
    "refused with 7",
    "refused with 8",
    "refused with 10",
];

/// Adds a trace to a row of totals, of any length. Gives the number, and leaves the new totals in the
/// row.
pub fn check_share(trace: &[u8], totals: &mut [u64]) -> Result<u8, Difference> {
    let before = totals.to_vec();
    let mut said = before.clone();
    let number = share_add(trace, totals);
    let packed = boundary::share_add(trace, &mut said);
    compared(&before, number, totals, packed, &said)
}

/// Joins a row of totals to another, both of any length, in the same way.
pub fn check_join(other: &[u64], totals: &mut [u64]) -> Result<u8, Difference> {
    let before = totals.to_vec();
    let mut said = before.clone();
    let number = share_join(other, totals);
    let packed = boundary::share_join(other, &mut said);
    compared(&before, number, totals, packed, &said)
        .map_err(|difference| format!("{difference}; joined {other:?}").into())
}

/// What the model gave and left, and what the library did.
fn compared(
    before: &[u64],
    number: u8,
    totals: &[u64],
    packed: u32,
    said: &[u64],
) -> Result<u8, Difference> {
    if packed != u32::from(number) {
        return differ(format!("totals {before:?}: model number {number}, library {packed}"));
    }
    let Some(at) = (0..totals.len()).find(|&at| totals[at] != said[at]) else {
        return Ok(number);
    };
    let name = NAMES.get(at).copied().unwrap_or("a number that had to stay");
    differ(format!(
        "{name}: {} before, model {}, library {}; totals {before:?}",
        before[at], totals[at], said[at]
    ))
}

/// Random additions: to any totals, one after the other to the same totals, and to rows of another
/// length.
pub fn share_calls(rng: &mut Rng, figures: &mut Figures) {
    for _ in 0..8 {
        let trace = any_trace(rng);
        figures.share(&trace, &mut any_numbers(rng));
    }
    let mut running = [0; NUMBERS];
    for _ in 0..8 {
        let trace = any_trace(rng);
        figures.share(&trace, &mut running);
    }
    let length = rng.pick(&[0, 1, 16, 18, 34]);
    let mut other: Vec<u64> = (0..length).map(|_| rng.below(1 << 31)).collect();
    let trace = any_trace(rng);
    figures.share(&trace, &mut other);
    for _ in 0..4 {
        figures.join(&any_numbers(rng), &mut any_numbers(rng));
    }
    figures.join(&running, &mut any_numbers(rng));
    figures.join(&running, &mut other);
    figures.join(&other, &mut running);
}

/// All stored traces added to the same totals; and each of the first to totals about the most traces
/// and about the top of 64 bits.
pub fn shares_of_stored(figures: &mut Figures) {
    let traces = stored_traces();
    let mut running = [0; NUMBERS];
    traces.iter().for_each(|trace| figures.share(trace, &mut running));
    for trace in traces.iter().take(40) {
        for before in [MOST_TRACES - 1, MOST_TRACES, MOST_TRACES + 1, u64::MAX, 0] {
            for total in [0, 1, u64::MAX - 1, u64::MAX] {
                let mut totals = [total; NUMBERS];
                totals[0] = before;
                figures.share(trace, &mut totals);
            }
        }
    }
}

/// Totals in a row of every length to 40; and every beginning of an input as one trace.
pub fn totals_of_every_length(figures: &mut Figures) {
    let traces = stored_traces();
    for length in 0..=40 {
        for trace in [&traces[0], &traces[1], &traces[2]] {
            figures.share(trace, &mut vec![0x5A5A; length]);
        }
        figures.join(&[7; NUMBERS], &mut vec![0x5A5A; length]);
        figures.join(&vec![0x5A5A; length], &mut [7; NUMBERS]);
    }
    let bytes = input_of(&traces[1..3]);
    for length in 0..bytes.len().min(300) {
        figures.share(&bytes[2..][..length], &mut [1; NUMBERS]);
        figures.share(&bytes[..length], &mut [1; NUMBERS]);
    }
}

/// Totals about the most traces and about the top of 64 bits, each joined to each.
pub fn joins_about_the_most(figures: &mut Figures) {
    let traces = [0, 1, MOST_TRACES - 1, MOST_TRACES, MOST_TRACES + 1, u64::MAX - 1, u64::MAX];
    let rows: Vec<[u64; NUMBERS]> = traces
        .into_iter()
        .flat_map(|traces| {
            [0, 1, u64::MAX - 1, u64::MAX].map(|total| {
                let mut totals = [total; NUMBERS];
                totals[0] = traces;
                totals
            })
        })
        .collect();
    for other in &rows {
        rows.iter().for_each(|totals| figures.join(other, &mut totals.clone()));
    }
}

impl Figures {
    /// Joins totals on both sides and counts it.
    pub fn join(&mut self, other: &[u64], totals: &mut [u64]) {
        match check_join(other, totals) {
            Ok(number) => self.answered("share join", number),
            Err(difference) => self.tell("totals", &[], &difference),
        }
    }

    /// Adds a trace on both sides and counts it.
    pub fn share(&mut self, trace: &[u8], totals: &mut [u64]) {
        let before = <[u64; NUMBERS]>::try_from(&*totals);
        match check_share(trace, totals) {
            Ok(number) => {
                self.answered("share add", number);
                if let Ok(before) = before {
                    self.sights.see_share(trace, before);
                }
            }
            Err(difference) => self.tell("trace", trace, &difference),
        }
    }
}
