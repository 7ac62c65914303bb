//! Traces written: from pins, part and events, or from an old trace.

#[cfg(feature = "alloc")]
use alloc::{vec, vec::Vec};

#[cfg(feature = "alloc")]
use crate::layout::{HEAD, TAIL};
use crate::{boundary, Part, Pins, Refusal};

/// Writes a trace into a lent buffer and gives the trace's length.
///
/// `events` has four bytes an event, and they are written as they are, also those that a device
/// will refuse. Refusals, in this order: 8 for the pins, 5 if the bytes do not come in fours, 6
/// above 4,096 events, 9 if the buffer is shorter than the trace. The buffer is untouched then.
/// Bytes past the trace stay as they are.
pub fn write_trace_into(
    pins: impl Into<Pins>,
    part: Part,
    events: &[u8],
    trace: &mut [u8],
) -> Result<usize, Refusal> {
    length(boundary::write_trace(pins.into().into(), part.number(), events, trace))
}

/// The trace of these pins, this part and these events. The events are `Event`s, or four bytes each.
#[cfg(feature = "alloc")]
pub fn write_trace<E>(pins: impl Into<Pins>, part: Part, events: &[E]) -> Result<Vec<u8>, Refusal>
where
    E: Copy + Into<[u8; 4]>,
{
    let bytes: Vec<u8> = events.iter().flat_map(|&event| event.into()).collect();
    let mut trace = vec![0; HEAD + bytes.len() + TAIL];
    let length = write_trace_into(pins, part, &bytes, &mut trace)?;
    trace.truncate(length);
    Ok(trace)
}

/// Writes an old trace, which ends after its events, with the kind of part added, into a lent buffer
/// and gives the new trace's length. The part is a PCA9641, as there was no other.
///
/// What is no old trace is refused by document 01's number, a new trace with 7; then 9 if the buffer
/// has not two bytes more than the old trace. The buffer is untouched then. Bytes past the trace
/// stay as they are.
pub fn convert_trace_into(old: &[u8], trace: &mut [u8]) -> Result<usize, Refusal> {
    length(boundary::convert_trace(old, trace))
}

/// An old trace, which ends after its events, with the kind of part added: a PCA9641.
///
/// ```
/// let old = [4, 0, 0, 0, 0, 1, 0, 6, 0, 0, 0];
/// assert_eq!(gunwaleish::run(&old), Err(gunwaleish::Refusal::TraceCut));
/// let trace = gunwaleish::convert_trace(&old)?;
/// assert_eq!(trace, [4, 0, 0, 0, 0, 1, 0, 6, 0, 0, 0, 1, 0]);
/// assert_eq!(gunwaleish::run(&trace)?.part, gunwaleish::Part::Pca9641);
/// # Ok::<(), gunwaleish::Refusal>(())
/// ```
#[cfg(feature = "alloc")]
pub fn convert_trace(old: &[u8]) -> Result<Vec<u8>, Refusal> {
    let mut trace = vec![0; old.len() + TAIL];
    let length = convert_trace_into(old, &mut trace)?;
    trace.truncate(length);
    Ok(trace)
}

/// The length out of a packed number, or the refusal.
fn length(packed: u64) -> Result<usize, Refusal> {
    Refusal::of(packed as u8).map_or(Ok((packed >> 8) as usize), Err)
}
