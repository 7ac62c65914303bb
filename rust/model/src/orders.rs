//! All orders of two start-up scripts: for each the third answer byte after its last event. Document
//! 02, #109.
//!
//! "Taking the next event from script 0 first, then from script 1" at every point is a sequence that
//! can be counted: with a 0 for an event of script 0 and a 1 for one of script 1, the first event in
//! the highest bit, the orders come as rising numbers. So all numbers of that length are gone through,
//! those with as many ones as script 1 has events are the orders, and each is stepped anew.

use crate::device::Device;
use crate::trace::four;

/// "Up to six events each."
pub const MOST_SCRIPT: usize = 6;

/// What the call answers.
#[derive(Clone, Copy, Debug, PartialEq, Eq)]
pub struct Listed {
    /// 0, or the number of the refusal.
    pub number: u8,
    /// "How many it listed, the smaller of that limit and the number of orders." A refusal lists
    /// none.
    pub count: usize,
}

/// Writes a byte for each order, up to the limit. Bytes past them stay.
pub fn list_orders(script0: &[u8], script1: &[u8], limit: usize, listed: &mut [u8]) -> Listed {
    let bytes = match bytes_of_orders(script0, script1) {
        Ok(bytes) => bytes,
        Err(number) => return Listed { number, count: 0 },
    };
    let count = limit.min(bytes.len());
    // "Then 9 when room is under that number."
    if listed.len() < count {
        return Listed { number: 9, count: 0 };
    }
    listed[..count].copy_from_slice(&bytes[..count]);
    Listed { number: 0, count }
}

/// The bytes of all orders. "Event bytes not in fours are 5, before 6", "a script above six".
pub fn bytes_of_orders(script0: &[u8], script1: &[u8]) -> Result<Vec<u8>, u8> {
    if [script0, script1].iter().any(|script| !script.len().is_multiple_of(4)) {
        return Err(5);
    }
    let events = |script: &[u8]| -> Vec<[u8; 4]> { script.chunks(4).map(four).collect() };
    let scripts = [events(script0), events(script1)];
    if scripts.iter().any(|script| script.len() > MOST_SCRIPT) {
        return Err(6);
    }
    let patterns = patterns(scripts[0].len(), scripts[1].len());
    Ok(patterns.iter().map(|pattern| byte_at_end(&order_of(pattern, &scripts))).collect())
}

/// Every order as the script of each of its events, 0 or 1, in the request's sequence.
pub fn patterns(events0: usize, events1: usize) -> Vec<Vec<usize>> {
    let length = events0 + events1;
    let numbers = (0..1u32 << length).filter(|number| number.count_ones() as usize == events1);
    let bits = |number: u32| (0..length).rev().map(|at| (number >> at & 1) as usize).collect();
    numbers.map(bits).collect()
}

/// The events of an order: each place takes the first event that its script has left.
pub fn order_of(pattern: &[usize], scripts: &[Vec<[u8; 4]>; 2]) -> Vec<[u8; 4]> {
    let mut left = scripts.each_ref().map(|script| script.iter());
    pattern.iter().filter_map(|&script| left[script].next().copied()).collect()
}

/// "The third answer byte after its last event", of a fresh PCA9641. With no event it "is that of the
/// fresh device".
pub fn byte_at_end(events: &[[u8; 4]]) -> u8 {
    let mut device = Device::power_up();
    let mut answer = device.answer(0, 0);
    for event in events {
        answer = device.step(*event);
    }
    answer[2]
}
