//! The layout of a trace: what stands before its events and after them, and four bytes an event.

/// The most events a trace may have.
pub const MOST_EVENTS: usize = 4096;

/// The bytes of a trace before its events: the first count, the pins and the count of events.
pub(crate) const HEAD: usize = 7;

/// The bytes of a trace after its events: the count 1 and the kind of part.
pub(crate) const TAIL: usize = 2;

/// The bytes of the longest trace.
pub const MOST_TRACE: usize = HEAD + 4 * MOST_EVENTS + TAIL;

/// Events or answers out of their bytes.
pub(crate) fn fours(bytes: &[u8]) -> impl Iterator<Item = [u8; 4]> + '_ {
    bytes.chunks_exact(4).map(|four| [four[0], four[1], four[2], four[3]])
}
