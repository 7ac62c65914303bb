//! A trace, run from power-up.

#[cfg(feature = "alloc")]
use alloc::{vec, vec::Vec};

#[cfg(feature = "alloc")]
use crate::layout::{fours, HEAD, MOST_EVENTS};
use crate::{boundary, Part, Refusal};
#[cfg(feature = "alloc")]
use crate::{Answer, Event, Pins};

/// What an accepted trace reports. Its answers are in the buffer.
#[derive(Clone, Copy, Debug, PartialEq, Eq)]
pub struct Report {
    /// The seven-bit address of the strapping.
    pub address: u8,
    /// How many events were run, and answered by four bytes each.
    pub events: usize,
    /// The part that they were run on.
    pub part: Part,
}

/// Runs a trace from power-up and writes its answers.
///
/// Bytes of `answers` past four an event stay as they are. A refused trace leaves all of them as
/// they are.
pub fn run_trace(trace: &[u8], answers: &mut [u8]) -> Result<Report, Refusal> {
    let packed = boundary::run_trace(trace, answers);
    let [number, address, low, high, kind, ..] = packed.to_le_bytes();
    if let Some(refusal) = Refusal::of(number) {
        return Err(refusal);
    }
    let part = Part::of(kind).ok_or(Refusal::NoSuchPart)?;
    Ok(Report { address, events: u16::from_le_bytes([low, high]).into(), part })
}

/// An accepted trace with its names: what was read, and what was answered. There are as many
/// answers as events.
#[cfg(feature = "alloc")]
#[derive(Clone, Debug, PartialEq, Eq)]
#[non_exhaustive]
pub struct Run {
    /// The seven-bit address of the strapping.
    pub address: u8,
    /// The strapping, as the trace has it.
    pub pins: Pins,
    /// The part that the events were run on.
    pub part: Part,
    /// The trace's events in their order, also those that the device refused.
    pub events: Vec<Event>,
    /// The answer to each event, in the same order.
    pub answers: Vec<Answer>,
}

/// Runs a trace from power-up and gives its events and answers by their names.
///
/// ```
/// use gunwaleish::{run, Event, Master, Outcome, Part};
///
/// // 70h, two events, a PCA9641: master 1 opens CONTR, and a STOP of master 0, whose port is at rest.
/// let run = run(&[4, 0, 0, 0, 0, 2, 0, 0, 1, 1, 0, 3, 0, 0, 0, 1, 0])?;
/// assert_eq!((run.address, run.part), (0x70, Part::Pca9641));
/// assert_eq!(run.events[0], Event::Command { master: Master::One, code: 1 });
/// assert_eq!(run.answers[1].outcome, Outcome::OutOfSequence);
/// # Ok::<(), gunwaleish::Refusal>(())
/// ```
#[cfg(feature = "alloc")]
pub fn run(trace: &[u8]) -> Result<Run, Refusal> {
    let mut answers = vec![0; 4 * (trace.len() / 4).min(MOST_EVENTS)];
    let report = run_trace(trace, &mut answers)?;
    answers.truncate(4 * report.events);
    // An accepted trace has its head and its events, so these slices are there.
    let pins = fours(trace.get(1..5).unwrap_or_default()).next().unwrap_or_default();
    let events = trace.get(HEAD..HEAD + 4 * report.events).unwrap_or_default();
    Ok(Run {
        address: report.address,
        pins: pins.into(),
        part: report.part,
        events: fours(events).map(Event::from).collect(),
        answers: fours(&answers).map(Answer::from).collect(),
    })
}
