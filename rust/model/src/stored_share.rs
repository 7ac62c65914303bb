//! Inputs of the bus share report (document 02, #112), good and cut, with the text it prints.
//!
//! `cargo run --bin stored_share` writes one of them, input and text.

use crate::report::{input_of, share_report};
use crate::share::MOST_TRACES;
use crate::stored::stored_traces;
use crate::trace::read_trace;
use crate::traces::{seed_of, trace};

/// The run that the seeds here belong to.
const RUN: u64 = 112;

/// One input by its name.
pub struct Case {
    pub name: &'static str,
    pub input: Vec<u8>,
}

impl Case {
    /// What the program prints for it.
    pub fn output(&self) -> String {
        share_report(&self.input)
    }
}

/// All inputs.
pub fn cases() -> Vec<Case> {
    let good = good_traces();
    let first = &good[0];
    // The bytes of a whole trace, of which the last is missing.
    let mut cut = first.clone();
    cut.pop();
    let length = (first.len() as u16).to_le_bytes();
    let case = |name, parts: &[&[u8]]| Case { name, input: parts.concat() };
    let accepted = input_of(&good);
    let mixed = input_of(&stored_traces());
    // As long as a length can say, with all but its beginning after the end of a good trace.
    let mut long = good[good.len() - 1].clone();
    long.resize(usize::from(u16::MAX), 0);
    let most = input_of(&vec![vec![]; MOST_TRACES as usize - 1]);
    vec![
        case("accepted", &[&accepted]),
        case("refused", &[&input_of(&refused_traces())]),
        // Accepted and refused traces, a length of 0 among them.
        case("mixed", &[&mixed]),
        case("long", &[&input_of(&[first.clone(), long, first.clone()])]),
        case("cut-in-a-trace", &[&accepted, &length, &cut]),
        case("cut-after-a-length", &[&accepted, &length]),
        case("cut-in-a-length", &[&accepted, &length[..1]]),
        case("empty", &[]),
        case("length-of-0", &[&[0, 0]]),
        // The last trace that is counted, then one that is not, and ones that are cut.
        case("most", &[&most, &length, first]),
        case("past", &[&most, &length, first, &length, first]),
        case("past-and-cut", &[&most, &length, first, &length, &cut]),
        case("past-in-a-length", &[&most, &length, first, &[0]]),
    ]
}

/// Traces of either kind of part, short ones and some in which somebody waits for long.
fn good_traces() -> Vec<Vec<u8>> {
    let lengths = [60, 0, 1, 20, 40, 90, 300, 700, 1500, 4096];
    (0..).zip(lengths).map(|(place, length)| trace(seed_of(RUN, place), length)).collect()
}

/// The stored traces that are refused.
fn refused_traces() -> Vec<Vec<u8>> {
    stored_traces().into_iter().filter(|trace| read_trace(trace).is_err()).collect()
}
