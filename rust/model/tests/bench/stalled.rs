//! How a controller, m, stands that sends nothing any more, and how its partner comes to the bus.

use model::crashes::limit;
use model::device::{Port, IDLE_TIMER_DIS};

use super::*;

pub fn at_rest(device: &Device, m: usize) -> bool {
    device.masters[m].port == Port::AtRest
}

pub fn owns(device: &Device, m: usize) -> bool {
    device.owner() == Some(m)
}

/// m claims and is not granted.
pub fn claims(device: &Device, m: usize) -> bool {
    device.claimant() == Some(m) && !owns(device, m)
}

/// A reserve, or the timer on. RT is the reserve of a grant as long as it lasts.
pub fn can_end(device: &Device, m: usize) -> bool {
    device.masters[m].rt != 0 || device.masters[m].has(IDLE_TIMER_DIS)
}

/// "By the tick hold + reserve (or + the part's limit where RT is 0)".
pub fn figure(device: &Device, m: usize) -> usize {
    let lasts = match device.masters[m].rt {
        0 => limit(device.kind),
        reserve => usize::from(reserve),
    };
    device.hold as usize + lasts
}

/// The tick at which p owns, if it does within so many ticks.
pub fn turn(device: &Device, p: usize, most: usize) -> Option<usize> {
    let mut device = device.clone();
    for count in 0..=most {
        if owns(&device, p) {
            return Some(count);
        }
        device.step(tick());
    }
    None
}
