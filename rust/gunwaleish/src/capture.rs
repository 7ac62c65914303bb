//! A logic analyser's capture, turned into events. Document 02, #104.
//!
//! A capture has one byte a sample: bit 0 is SCL and bit 1 SDA of master 0's bus, bits 2 and 3 are
//! those of master 1's. `docs/CAPTURES.md` tells what is read out of it, and how to make one.

#[cfg(feature = "alloc")]
use alloc::{vec, vec::Vec};

use crate::{boundary, Refusal};
#[cfg(feature = "alloc")]
use crate::{layout::fours, Event};

/// The most samples that a capture may have.
pub const MOST_SAMPLES: usize = 32_768;

/// The most events that a capture gives. An event takes nine samples.
pub const MOST_CAPTURED: usize = MOST_SAMPLES / 9;

/// Writes the events that a capture has for the device of this address into a lent buffer, four
/// bytes each, and gives their count.
///
/// Refusals, in this order: 13 above 32,768 samples, 11 for the address, 12 if a START or STOP
/// stands inside a byte or the capture ends inside one, 9 if the buffer is too short. The buffer is
/// untouched then. Bytes past the events stay as they are.
pub fn import_capture_into(
    samples: &[u8],
    address: u8,
    events: &mut [u8],
) -> Result<usize, Refusal> {
    let packed = boundary::import_capture(samples, address, events);
    Refusal::of(packed as u8).map_or(Ok((packed >> 8) as usize), Err)
}

/// The events that a capture has for the device of this address.
///
/// ```
/// use gunwaleish::{import_capture, Event, Master};
///
/// // Master 0's bus: START, the address 71h with a write bit, the byte 01h, STOP.
/// let mut samples = vec![0x0F, 0x0D];
/// for byte in [0xE2, 0x01] {
///     // Eight bits, and one for the acknowledgement, each while SCL is low, high and low again.
///     for bit in (0..8).rev().map(|place| byte >> place & 1).chain([0]) {
///         samples.extend([0x0C, 0x0C | bit << 1, 0x0D | bit << 1, 0x0C | bit << 1]);
///     }
/// }
/// samples.extend([0x0C, 0x0D, 0x0F]);
/// let master = Master::Zero;
/// let events = [Event::Command { master, code: 1 }, Event::Stop { master }];
/// assert_eq!(import_capture(&samples, 0x71)?, events);
/// // No transfer is for 70h.
/// assert_eq!(import_capture(&samples, 0x70)?, []);
/// # Ok::<(), gunwaleish::Refusal>(())
/// ```
#[cfg(feature = "alloc")]
pub fn import_capture(samples: &[u8], address: u8) -> Result<Vec<Event>, Refusal> {
    let mut events = vec![0; 4 * (samples.len() / 9).min(MOST_CAPTURED)];
    let count = import_capture_into(samples, address, &mut events)?;
    Ok(fours(&events).take(count).map(Event::from).collect())
}
