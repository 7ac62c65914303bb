//! Random scenes by their seed: two controllers that ask, look, send mail and let go, and a world that
//! moves the downstream lines.

use super::bus::{Setting, DOWN_SCL, DOWN_SDA, INT_IN, LINES};
use super::chip::Flaw;
use super::moves::Manner;
use super::play::Scene;
use super::script::{get, set, Item, Script, World};
use crate::part::BOTH_KINDS;
use crate::rng::Rng;

/// The kinds of random scene.
#[derive(Clone, Copy, Debug, PartialEq, Eq)]
pub enum Sort {
    /// No event comes while a byte is being read.
    Apart,
    /// Events come while bytes are being read.
    Overlapping,
    /// As `Apart`, with what a bus may have on it besides.
    Noisy,
    /// As `Apart`, but the chip's milliseconds are not the listener's. On a real bus nothing makes
    /// them so: a right chip may be heard to answer by a tick that is still to come for it.
    Phased,
}

/// A scene of this sort with a right chip.
pub fn scene(sort: Sort, seed: u64) -> Scene {
    let mut rng = Rng::new(seed);
    let slowest = rng.pick(&[1, 2, 3, 5]);
    // A byte that is read has to fit a tick: nine clocks of four levels at most.
    let fewest = 9 * 4 * slowest + 1;
    let samples_per_tick = match sort {
        Sort::Overlapping => rng.between(20, 200),
        _ => rng.pick(&[fewest, fewest + 13, 2 * fewest, 1000]),
    };
    let address = rng.between(0x08, 0x77) as u8;
    let setting = Setting { address, kind: rng.pick(&BOTH_KINDS), samples_per_tick };
    let manner = Manner {
        slowest,
        meets: rng.pick(&[0, 10, 30]),
        aims: rng.pick(&[0, 5, 20]),
        glitches: if sort == Sort::Noisy { 10 } else { rng.pick(&[0, 0, 5]) },
        apart: sort != Sort::Overlapping,
        echo: rng.percent(70),
        bit_7: rng.percent(50),
    };
    let scripts = [0, 1].map(|_| script(&mut rng, setting, sort == Sort::Noisy));
    let first = match sort {
        Sort::Noisy => [0, 1].map(|_| rng.pick(&[0, 1, 2, 3])),
        _ => [3, 3],
    };
    let world = world(&mut rng, setting);
    let tail = rng.below(2 * samples_per_tick);
    let phase = if sort == Sort::Phased { rng.between(1, samples_per_tick - 1) } else { 0 };
    Scene {
        phase,
        setting,
        flaw: Flaw::None,
        scripts,
        world,
        first,
        manner,
        seed: rng.below(1 << 31),
        tail,
    }
}

fn script(rng: &mut Rng, setting: Setting, noisy: bool) -> Script {
    let mut script = vec![];
    for _ in 0..rng.between(10, 40) {
        script.extend(talk(rng, setting));
        if noisy && rng.percent(40) {
            script.extend(super::noise::talk(rng, setting.address));
        }
        if rng.percent(60) {
            let most = rng.pick(&[1, 20, 200, 3 * setting.samples_per_tick]);
            script.push(Item::Rest(rng.between(1, most)));
        }
    }
    script
}

/// From a START to a STOP.
fn talk(rng: &mut Rng, setting: Setting) -> Script {
    match rng.below(20) {
        0..=3 => set(1, contr(rng)),
        4 => set(3, rng.pick(&[0, 1, 2, 3, 5])),
        5..=7 => get(0x80 | rng.pick(&[0, 1, 2, 4]), rng.between(1, 4) as usize),
        8 => get(0x04, 2),
        9 => set(4, rng.byte()),
        10 => set(2, rng.pick(&[0x20, 0x00, 0x40, 0x80, 0xC0])),
        11 => set(5, rng.byte()),
        12 | 13 => vec![Item::Write(vec![0x86, rng.byte() & 0xF7, rng.byte()]), Item::Stop],
        14 => get(rng.pick(&[0x86, 0x06, 0x07]), 2),
        15 => burst(rng),
        16 => vec![Item::Read(rng.between(1, 3) as usize), Item::Stop],
        17 => vec![
            Item::Write(vec![1, contr(rng)]),
            Item::Read(1),
            Item::Write(vec![rng.pick(&[0x81, 0x84, 0x08, 0x48])]),
            Item::Read(rng.between(1, 5) as usize),
            Item::Stop,
        ],
        18 => rare(rng, setting),
        _ => vec![Item::Pair(vec![1, contr(rng)]), Item::Stop],
    }
}

/// CONTR without BUS_INIT, mostly with a request.
fn contr(rng: &mut Rng) -> u8 {
    rng.pick(&[0x01, 0x05, 0x21, 0x25, 0x81, 0x85, 0x45, 0x11, 0x00, 0x00, 0xF7, 0x04])
}

/// A burst from any register on. No byte of it sets BUS_INIT, wherever it goes.
fn burst(rng: &mut Rng) -> Script {
    let mut bytes = vec![0x80 | rng.below(8) as u8];
    (0..rng.between(1, 6)).for_each(|_| bytes.push(rng.byte() & 0xF7));
    vec![Item::Write(bytes), Item::Stop]
}

/// What a shelf's bus has besides: other devices, general calls, a lone address.
fn rare(rng: &mut Rng, setting: Setting) -> Script {
    let other = (2 * setting.address) ^ 2;
    match rng.below(4) {
        0 => vec![Item::Other(other, vec![rng.byte(), 0x06]), Item::Stop],
        1 => vec![Item::Call(vec![rng.pick(&[0x06, 0x06, 0x04])]), Item::Stop],
        2 => vec![Item::Write(vec![]), Item::Stop],
        _ => vec![
            Item::Write(vec![0x01]),
            Item::Other(other | 1, vec![0x55]),
            Item::Read(1),
            Item::Stop,
        ],
    }
}

/// Transfers downstream, an INT_IN that comes and goes, lines that stay low for a while.
fn world(rng: &mut Rng, setting: Setting) -> World {
    let mut world = vec![];
    let mut at = 0;
    let mut lines = LINES;
    for _ in 0..rng.between(0, 60) {
        // Now and then in one sample with a TICK.
        let step = rng.between(1, 2 * setting.samples_per_tick);
        at = match rng.percent(20) {
            true => (at / setting.samples_per_tick + 1) * setting.samples_per_tick,
            false => at + step,
        };
        if rng.percent(5) {
            at += 40 * setting.samples_per_tick;
        }
        lines = match rng.percent(30) {
            true => LINES,
            false => lines ^ rng.pick(&[DOWN_SCL, DOWN_SDA, DOWN_SDA, INT_IN]),
        };
        world.push((at, lines));
    }
    if rng.percent(30) {
        // The lines are not high at power-up.
        world.insert(0, (0, rng.byte() & LINES));
    }
    world
}
