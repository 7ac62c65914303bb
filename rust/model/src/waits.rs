//! Long waits on a low line, about as long as BUS_HUNG needs (document 02, #102).
//! Some end just before it, some just after, and in some SCL changes on the way.
//! They only shape the random cases. They say nothing about what is right.

use crate::device::*;
use crate::event::make::*;
use crate::phrases::{Bytes, Phrase};
use crate::rng::Rng;

/// A wait has at most this many events, besides those before an SCL change.
pub const WAIT: usize = 600;

/// A wait for a list that has so many events left. They are more than WAIT.
pub fn hanging_wait(rng: &mut Rng, device: &Device, left: usize) -> Phrase {
    let wait = match rng.below(10) {
        0..=2 => scl_low(rng),
        3..=5 => sda_low(rng),
        6..=7 => by_drive_or_lines(rng, device, left),
        8 => running_clock(rng, left),
        _ => clock_then_wait(rng, left),
    };
    // Often a master has the mask of a hung bus open, so that every answer tells of BUS_HUNG.
    let m = rng.below(2) as u8;
    let open = if rng.percent(60) { write_mask(m) } else { vec![] };
    [open, wait].concat()
}

fn write_mask(m: u8) -> Phrase {
    vec![command(m, 5), write(m, !INT_HUNG & 0x7F), stop(m)]
}

/// Ticks that end just short of a hung bus, at it, or a little later.
fn about(rng: &mut Rng, hung: i64) -> Phrase {
    let more = rng.pick(&[-2, -1, -1, -1, 0, 0, 1, 2]);
    vec![tick(); (hung + more) as usize]
}

/// Ticks before SCL changes: often just short of a hung bus or at it, if the list is long enough.
fn first_ticks(rng: &mut Rng, left: usize) -> Phrase {
    if left > 2 * WAIT && rng.percent(60) {
        return about(rng, SDA_HUNG_TICKS);
    }
    vec![tick(); rng.between(1, 40) as usize]
}

/// SCL is low, with SDA high or low.
fn scl_low(rng: &mut Rng) -> Phrase {
    let sda = rng.below(2) as u8;
    let rise = [lines(1, sda, 1), lines(1, 1, 1)];
    [vec![lines(0, sda, 1)], about(rng, SCL_HUNG_TICKS), rise.to_vec()].concat()
}

/// SDA is low and SCL stays high.
fn sda_low(rng: &mut Rng) -> Phrase {
    [vec![lines(1, 0, 1)], about(rng, SDA_HUNG_TICKS), ending(rng)].concat()
}

/// How a wait on SDA ends: SDA rises, SCL changes, SCL falls and rises, a reset, or not at all.
fn ending(rng: &mut Rng) -> Phrase {
    match rng.below(8) {
        0..=2 => vec![lines(1, 1, 1)],
        3 => vec![lines(0, 0, 1), tick(), lines(1, 0, 1)],
        4 => vec![lines(0, 0, 1), lines(1, 0, 1), tick(), lines(1, 1, 1)],
        5 => vec![lines(0, 1, 1), lines(1, 1, 1)],
        6 => vec![reset(), tick(), tick()],
        _ => vec![tick(), tick()],
    }
}

/// SDA stays low while SCL changes once or twice on the way, by a drive if a master may drive.
fn by_drive_or_lines(rng: &mut Rng, device: &Device, left: usize) -> Phrase {
    let driver = device.owner().filter(|&m| !device.masters[m].has(BUS_CONNECT));
    // What SCL does between the two waits. With no tick in between it falls and rises at once.
    let pause = vec![tick(); rng.pick(&[0, 0, 0, 1, 2, 30])];
    let (low, fall, rise, high) = match driver {
        None => (vec![lines(1, 0, 1)], vec![lines(0, 0, 1)], vec![lines(1, 0, 1)], ending(rng)),
        Some(m) => {
            // The drive bits are SDA (80h) and SCL (40h); a 0 pulls low.
            let m = m as u8;
            let end = if rng.percent(30) { release(m) } else { drive(m, 0xC0) };
            (drive(m, 0x40), drive(m, 0x00), drive(m, 0x40), end)
        }
    };
    let rise = if rng.percent(70) { rise } else { vec![] };
    [low, first_ticks(rng, left), fall, pause, rise, about(rng, SDA_HUNG_TICKS), high].concat()
}

fn drive(m: u8, status: u8) -> Phrase {
    vec![command(m, 2), write(m, status), stop(m)]
}

/// The end of a grant releases the drives.
fn release(m: u8) -> Phrase {
    vec![command(m, 1), write(m, 0), stop(m)]
}

/// SDA stays low while SCL changes every few ticks, for longer than a hung bus needs.
fn running_clock(rng: &mut Rng, left: usize) -> Phrase {
    let every = rng.pick(&[3, 10, 30, 60, 200]);
    let most = (left - 20).min(SDA_HUNG_TICKS as usize + 60);
    let mut phrase = vec![lines(1, 0, 1)];
    let mut scl = 1;
    while phrase.len() + every < most {
        phrase.extend(vec![tick(); every]);
        scl = 1 - scl;
        phrase.push(lines(scl, 0, 1));
    }
    phrase.extend([lines(1, 0, 1), lines(1, 1, 1)]);
    phrase
}

/// A clock that runs for a while and then stops, high or low, with SDA low.
fn clock_then_wait(rng: &mut Rng, left: usize) -> Phrase {
    let clocks = rng.between(1, 6) as usize;
    let mut phrase: Phrase = vec![lines(1, 0, 1), tick()];
    (0..clocks).for_each(|_| phrase.extend([lines(0, 0, 1), tick(), lines(1, 0, 1)]));
    phrase.extend(first_ticks(rng, left));
    phrase.push(lines(0, 0, 1));
    if rng.percent(50) {
        phrase.push(lines(1, 0, 1));
    }
    phrase.extend(about(rng, SDA_HUNG_TICKS));
    phrase.extend(ending(rng));
    phrase
}

/// The ticks of a hold, sometimes cut short by a reset, sometimes with SDA low up to a hung bus.
pub fn time_of_a_hold(rng: &mut Rng, device: &Device, left: usize) -> Vec<Bytes> {
    if rng.percent(15) {
        return vec![tick(), rng.pick(&[reset(), general_call(0, 6), general_call(1, 6)])];
    }
    if left > WAIT + HOLD_TICKS as usize && rng.percent(40) {
        // With SCL high outside, the tick that ends the hold is a change; else it is none.
        let low = lines(bit(rng.percent(70), 1), 0, 1);
        let hold = vec![tick(); device.hold as usize];
        return [vec![low], hold, about(rng, SDA_HUNG_TICKS), ending(rng)].concat();
    }
    vec![tick(); rng.between(34, 37) as usize]
}
