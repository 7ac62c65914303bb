//! Seeded random states at which a controller falls silent, and what may still come from then on. They
//! only shape the random cases. They say nothing about what is right.

use crate::device::*;
use crate::event::make::*;
use crate::nights::Night;
use crate::part::{Kind, BOTH_KINDS};
use crate::phrases::{master_phrase, Bytes, Phrase};
use crate::rng::Rng;

/// A device of either kind after a random run of both controllers, with resets. Often a hold runs.
pub fn crashed(rng: &mut Rng) -> Device {
    let mut device = Device::power_up_of(rng.pick(&BOTH_KINDS));
    let most = rng.pick(&[0, 0, 1, 3, 20, 255]);
    let mut night = Night::new(rng.below(1 << 30), true, Some(0..=most));
    for _ in 0..rng.between(1, 120) {
        let event = night.next_event(&device);
        device.step(event);
    }
    if rng.percent(30) {
        under_a_hold(rng, &mut device);
    }
    device
}

/// A soft reset that holds SCL, in which both controllers start to ask. Not all send their STOP.
fn under_a_hold(rng: &mut Rng, device: &mut Device) {
    let by = rng.below(2) as u8;
    let mut events = vec![command(by, 1), write(by, SMBUS_SWRST), general_call(by, 6)];
    let first = rng.below(2) as u8;
    for m in [first, 1 - first] {
        events.extend(vec![tick(); rng.below(12) as usize]);
        let any = rng.byte();
        let reserve = rng.pick(&[0, 0, 1, 5, any]);
        events.extend([command(m, 3), write(m, reserve), stop(m), command(m, 1)]);
        events.push(write(m, rng.byte() | bit(rng.percent(85), LOCK_REQ)));
        if rng.percent(85) {
            events.push(stop(m));
        }
        if rng.percent(20) {
            events.push(any_lines(rng));
        }
    }
    events.into_iter().for_each(|event| {
        device.step(event);
    });
}

/// Any levels, mostly high.
pub fn any_lines(rng: &mut Rng) -> Bytes {
    let mut level = || bit(rng.percent(65), 1);
    lines(level(), level(), level())
}

/// What may come while one controller is silent: its partner's own events, ticks and line changes, and no
/// reset. The device is the one that they come to.
pub fn silence_phrase(rng: &mut Rng, device: &Device, p: u8) -> Phrase {
    let phrase = match rng.below(100) {
        0..=24 => master_phrase(rng, device, p),
        25..=34 => vec![command(p, 1), write(p, rng.byte() | LOCK_REQ), stop(p)],
        35..=39 => vec![stop(p)],
        40..=54 => vec![any_lines(rng)],
        55..=69 => vec![lines(1, 0, 1), lines(1, 1, 1)],
        70..=74 => vec![pulse(rng.below(2) as u8)],
        75..=92 => vec![tick(); rng.between(1, 12) as usize],
        _ => vec![tick(); rng.between(13, 170) as usize],
    };
    phrase.into_iter().filter(|event| event[0] != 9).collect()
}

/// What may come between the events of a recipe: ticks, line changes, and events that are refused or not
/// acknowledged and change nothing, whoever sends them. The device has no port open but p's.
pub fn between(rng: &mut Rng, device: &Device, p: u8) -> Phrase {
    let m = 1 - p;
    let (any, other) = (rng.byte(), rng.byte());
    let refused = rng.pick(&[
        [10 + any % 200, other, 0, 0],
        [0, 2, 1, 0],
        [6, 0, 0, 1],
        write(m, any),
        pair(any, other),
        stop(m),
        pulse(m),
        [1, p, any, 1],
        general_call(m, 5),
        general_call(p, 7),
    ]);
    let at_rest = device.masters[usize::from(p)].port == Port::AtRest;
    match rng.below(20) {
        0..=4 => vec![tick(); rng.between(1, 4) as usize],
        5 => vec![tick(); rng.between(5, 60) as usize],
        6 | 7 => vec![any_lines(rng), tick()],
        8 => vec![lines(1, 0, 1), tick(), lines(1, 1, 1)],
        9..=12 => vec![refused],
        13 if at_rest => vec![stop(p), write(p, rng.byte())],
        _ => vec![],
    }
}

/// The levels are brought to an idle bus without a hold: a START and a STOP.
pub fn fall_idle() -> Phrase {
    vec![lines(1, 0, 1), lines(1, 1, 1)]
}

/// The part's idle limit in ticks.
pub fn limit(kind: Kind) -> usize {
    kind.idle_ticks() as usize
}
