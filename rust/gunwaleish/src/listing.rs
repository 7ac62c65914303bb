//! A trace's listing, as the Rattle program `listing` prints it.

#[cfg(feature = "alloc")]
use alloc::{string::String, vec};

use crate::boundary;
#[cfg(feature = "alloc")]
use crate::MOST_EVENTS;

/// Writes a trace's listing into a lent buffer and gives the listing's length.
///
/// If the buffer is shorter than that, nothing is written. Bytes past the listing stay as they
/// are.
pub fn listing_into(trace: &[u8], text: &mut [u8]) -> usize {
    boundary::listing(trace, text)
}

/// A trace's listing: address and count, then one answer a line, in capital hex; or `R` and the
/// number of a refused trace.
///
/// ```
/// use gunwaleish::listing;
///
/// let trace = [4, 0, 0, 0, 0, 2, 0, 0, 0, 1, 0, 1, 0, 5, 0, 1, 0];
/// assert_eq!(listing(&trace), "70 0002\n0000000C\n0000200C\n");
/// assert_eq!(listing(&trace[1..]), "R10\n");
/// ```
#[cfg(feature = "alloc")]
pub fn listing(trace: &[u8]) -> String {
    // 8 bytes for the first line and 9 for each event are enough, and a refusal is shorter.
    let mut text = vec![0; 8 + 9 * (trace.len() / 4).min(MOST_EVENTS)];
    let length = listing_into(trace, &mut text);
    if length > text.len() {
        text.resize(length, 0);
        listing_into(trace, &mut text);
    }
    text.truncate(length);
    String::from_utf8_lossy(&text).into_owned()
}
