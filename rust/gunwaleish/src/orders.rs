//! All orders of two start-up scripts. Document 02, #109.
//!
//! An order takes every event of both scripts and keeps each script's own order. The orders come in
//! one sequence: at each point script 0's next event is tried first, and then script 1's. With a 0
//! for an event of script 0 and a 1 for one of script 1 they come as numbers do: 001, 010, 100.
//! `docs/ORDERS.md` tells more.

#[cfg(feature = "alloc")]
use alloc::{vec, vec::Vec};

#[cfg(feature = "alloc")]
use crate::Bus;
use crate::{boundary, Refusal};

/// The most events of a script.
pub const MOST_SCRIPT: usize = 6;

/// The orders of two scripts of six events.
pub const MOST_ORDERS: usize = 924;

/// Writes the third answer byte after the last event of each order, from a fresh PCA9641, into a lent
/// buffer, and gives how many were listed: the smaller of the limit and the number of orders.
///
/// A script has four bytes an event, also of such as a device will refuse. Refusals, in this order: 5
/// if the bytes of a script do not come in fours, 6 if a script has more than six events, 9 if the
/// buffer is shorter than what is to be listed. The buffer is untouched then. Bytes past what is
/// listed stay as they are.
pub fn list_orders_into(
    script0: &[u8],
    script1: &[u8],
    limit: usize,
    listed: &mut [u8],
) -> Result<usize, Refusal> {
    let packed = boundary::list_orders(script0, script1, limit, listed);
    Refusal::of_scripts(packed as u8).map_or(Ok((packed >> 8) as usize), Err)
}

/// How the bus stands at the end of each order, up to the limit. The events are `Event`s, or four
/// bytes each. `usize::MAX` is no limit: there are at most 924 orders.
///
/// ```
/// use gunwaleish::{list_orders, Event, Ground, Master, Refusal};
///
/// let asks = |master| {
///     [Event::Command { master, code: 1 }, Event::Write { master, value: 1 }, Event::Stop { master }]
/// };
/// let all = list_orders(&asks(Master::Zero), &asks(Master::One), usize::MAX)?;
/// // In 10 of 20 orders controller 0 writes first, and owns the bus.
/// assert_eq!(all.len(), 20);
/// assert_eq!(all.iter().filter(|bus| bus.owner == Some(Master::Zero)).count(), 10);
/// // Controller 1 forgets its STOP. In the last order it claims the bus before controller 0 asks:
/// // nobody ever owns it.
/// let forgets = &asks(Master::One)[..2];
/// let last = list_orders(&asks(Master::Zero), forgets, usize::MAX)?[9];
/// assert_eq!((last.owner, last.ground), (None, Some(Ground::Sole)));
/// let long = [Event::Tick; 7];
/// assert_eq!(list_orders(&long, &[], 1), Err(Refusal::LongScript));
/// # Ok::<(), gunwaleish::Refusal>(())
/// ```
#[cfg(feature = "alloc")]
pub fn list_orders<E>(script0: &[E], script1: &[E], limit: usize) -> Result<Vec<Bus>, Refusal>
where
    E: Copy + Into<[u8; 4]>,
{
    let bytes =
        |script: &[E]| -> Vec<u8> { script.iter().flat_map(|&event| event.into()).collect() };
    let mut listed = vec![0; limit.min(MOST_ORDERS)];
    let count = list_orders_into(&bytes(script0), &bytes(script1), limit, &mut listed)?;
    Ok(listed.into_iter().take(count).map(Bus::from).collect())
}
