//! Seeded random event lists and traces.
//!
//! Three scripts are told at once: one for each master and one for the world
//! around them. A model device goes along, so that the next phrase can suit
//! the state. Its answers are not used here.

use std::collections::VecDeque;

use crate::device::{Device, IDLE_TIMER_DIS};
use crate::event::make::*;
use crate::part::{Kind, BOTH_KINDS};
use crate::phrases::{joint_phrase, master_phrase, Bytes};
use crate::rng::Rng;
use crate::straps::pins_of;
use crate::waits::{hanging_wait, time_of_a_hold, WAIT};

/// The script of the world, after the masters' 0 and 1.
const WORLD: usize = 2;
/// A script with more than this left is a long wait. It is not to be disturbed.
const LONG: usize = 12;

struct Teller {
    rng: Rng,
    device: Device,
    scripts: [VecDeque<Bytes>; 3],
    /// A run of events that has to stand together.
    joint: VecDeque<Bytes>,
    /// How many events are still to come.
    left: usize,
}

/// A random list of so many events, told along a PCA9641.
pub fn event_list(seed: u64, length: usize) -> Vec<Bytes> {
    event_list_of(Kind::Pca9641, seed, length)
}

/// A random list of so many events, told along a part of this kind.
pub fn event_list_of(kind: Kind, seed: u64, length: usize) -> Vec<Bytes> {
    let mut teller = Teller {
        rng: Rng::new(seed),
        device: Device::power_up_of(kind),
        scripts: Default::default(),
        joint: VecDeque::new(),
        left: length,
    };
    let mut events = Vec::with_capacity(length);
    while teller.left > 0 {
        events.push(teller.next_event());
        teller.left -= 1;
    }
    events
}

/// The seed of one list out of many. Lists of one run differ, and so do runs.
pub fn seed_of(run: u64, place: u64) -> u64 {
    run.wrapping_mul(1_000_003).wrapping_add(place)
}

/// A random trace that is accepted: strapping, count, events and either kind of part.
pub fn trace(seed: u64, length: usize) -> Vec<u8> {
    let mut rng = Rng::new(!seed);
    let address = rng.between(0x08, 0x77) as u8;
    let pins = pins_of(address).expect("every address 08h to 77h has a strapping");
    let kind = rng.pick(&BOTH_KINDS);
    trace_of_kind(kind, pins, &event_list_of(kind, seed, length))
}

/// The bytes of a trace for a PCA9641.
pub fn trace_of(pins: [u8; 4], events: &[Bytes]) -> Vec<u8> {
    trace_of_kind(Kind::Pca9641, pins, events)
}

/// The bytes of a trace: an old one and the third section (document 02, #105).
pub fn trace_of_kind(kind: Kind, pins: [u8; 4], events: &[Bytes]) -> Vec<u8> {
    let mut bytes = old_trace_of(pins, events);
    bytes.extend([1, kind.number()]);
    bytes
}

/// The bytes of a trace as document 01 had it at first, without a kind of part.
pub fn old_trace_of(pins: [u8; 4], events: &[Bytes]) -> Vec<u8> {
    let mut bytes = vec![4];
    bytes.extend(pins);
    bytes.extend((events.len() as u16).to_le_bytes());
    bytes.extend(events.concat());
    bytes
}

impl Teller {
    fn next_event(&mut self) -> Bytes {
        let event = self.choose_event();
        let answer = self.device.step(event);
        // A reset closes both ports. What the scripts had begun is given up.
        if answer[0] == 0 && (event == reset() || event[0] == 9) {
            self.scripts = Default::default();
            self.joint.clear();
        }
        event
    }

    fn choose_event(&mut self) -> Bytes {
        let waiting = self.scripts[WORLD].len() > LONG;
        if self.rng.percent(if waiting { 1 } else { 5 }) {
            return stray(&mut self.rng);
        }
        if let Some(event) = self.joint.pop_front() {
            return event;
        }
        if !waiting && self.rng.percent(2) {
            self.scripts[0].clear();
            self.scripts[1].clear();
            self.joint = joint_phrase(&mut self.rng).into();
        }
        let who = if waiting && self.rng.percent(97) { WORLD } else { self.rng.below(3) as usize };
        self.event_of(who)
    }

    /// The next event of one script. Two WRITE that stand ready may become a PAIR.
    fn event_of(&mut self, who: usize) -> Bytes {
        if self.scripts[who].is_empty() {
            let phrase = if who == WORLD {
                self.world_phrase()
            } else {
                master_phrase(&mut self.rng, &self.device, who as u8)
            };
            self.scripts[who].extend(phrase);
        }
        let event = self.scripts[who].pop_front().unwrap_or(tick());
        if who != WORLD && event[0] == 1 && self.rng.percent(50) {
            let partner = 1 - who;
            if let Some([1, _, value, _]) = self.scripts[partner].front().copied() {
                self.scripts[partner].pop_front();
                let mut values = [event[2], event[2]];
                values[partner] = value;
                return pair(values[0], values[1]);
            }
        }
        event
    }

    /// What happens around the masters: time, lines, clocks and the reset pin.
    fn world_phrase(&mut self) -> Vec<Bytes> {
        if self.device.initialising().is_some() && self.rng.percent(70) {
            return self.pulses();
        }
        if self.device.hold > 0 && self.rng.percent(50) {
            return time_of_a_hold(&mut self.rng, &self.device, self.left);
        }
        if self.left > WAIT && self.rng.percent(8) {
            return hanging_wait(&mut self.rng, &self.device, self.left);
        }
        let wait = self.device.kind.idle_ticks() as usize + 9;
        if self.idle_timer_is_on() && self.left > wait && self.rng.percent(25) {
            return self.quiet_wait();
        }
        let rng = &mut self.rng;
        match rng.below(100) {
            0..=44 => vec![tick(); rng.between(1, 5) as usize],
            45..=50 => vec![tick(); rng.between(6, 12) as usize],
            51..=56 => self.quiet_wait(),
            57..=64 => self.low_lines(),
            65..=78 => self.transfer(),
            79..=84 => vec![lines(1, 1, 0), lines(1, 1, 1)],
            85..=91 => self.crossing(),
            92..=98 => vec![lines(1, 0, 1), lines(1, 1, 1)],
            _ => vec![reset()],
        }
    }

    fn idle_timer_is_on(&self) -> bool {
        let owner = self.device.owner();
        owner.is_some_and(|m| self.device.masters[m].has(IDLE_TIMER_DIS))
    }

    /// A STOP, then about as many ticks as the idle timer needs: sometimes that of the other part.
    fn quiet_wait(&mut self) -> Vec<Bytes> {
        let any = self.rng.pick(&BOTH_KINDS);
        let kind = if self.rng.percent(60) { self.device.kind } else { any };
        let ticks = kind.idle_ticks() as u64 - 2 + self.rng.below(6);
        let mut phrase = vec![lines(1, 0, 1), lines(1, 1, 1)];
        phrase.extend(vec![tick(); ticks as usize]);
        phrase
    }

    /// Any levels one after the other. Often both lines change in one event.
    fn crossing(&mut self) -> Vec<Bytes> {
        let rng = &mut self.rng;
        let mut phrase = vec![];
        for _ in 0..rng.between(1, 4) {
            phrase.push(lines(bit(rng), bit(rng), bit(rng)));
        }
        phrase
    }

    /// Clocks of an initialisation: some 0, then often a 1.
    fn pulses(&mut self) -> Vec<Bytes> {
        let zeros = self.rng.pick(&[0, 1, 3, 7, 8, 9, 9, 9, 10]);
        let mut phrase = vec![pulse(0); zeros];
        if self.rng.percent(60) {
            phrase.push(pulse(1));
        }
        phrase
    }

    /// A line is low for about as many ticks as a time-out needs, then high again.
    fn low_lines(&mut self) -> Vec<Bytes> {
        let low = self.rng.pick(&[lines(0, 1, 1), lines(0, 1, 1), lines(1, 0, 1), lines(0, 0, 1)]);
        let mut phrase = vec![low];
        phrase.extend(vec![tick(); self.rng.between(33, 37) as usize]);
        phrase.push(lines(1, low[2], 1));
        phrase.push(lines(1, 1, 1));
        phrase
    }

    /// START, some ticks, STOP. A reserve may run out in between.
    fn transfer(&mut self) -> Vec<Bytes> {
        let int_in = bit(&mut self.rng);
        let level = |scl, sda| lines(scl, sda, int_in);
        let mut phrase = vec![level(1, 1), level(1, 0)];
        phrase.extend(vec![tick(); self.rng.between(0, 6) as usize]);
        if self.rng.percent(50) {
            phrase.extend([level(0, 0), level(0, 1), level(0, 0), level(1, 0)]);
        }
        phrase.push(level(1, 1));
        phrase
    }
}

fn bit(rng: &mut Rng) -> u8 {
    rng.below(2) as u8
}

/// An event from nowhere: of unknown kind, with a bad field, out of sequence
/// or simply any.
fn stray(rng: &mut Rng) -> Bytes {
    let mut event = [rng.below(10) as u8, bit(rng), rng.pick(&[0, 0, 1, 6, 0xA5]), bit(rng)];
    match rng.below(10) {
        0..=1 => event[0] = rng.between(10, 255) as u8,
        2..=3 => event[rng.between(1, 3) as usize] = rng.between(2, 255) as u8,
        4 => event = [rng.byte(), rng.byte(), rng.byte(), rng.byte()],
        5 => event = stop(bit(rng)),
        6 => event = pulse(bit(rng)),
        7 => event = pair(rng.byte(), rng.byte()),
        8 => event = write(bit(rng), rng.byte()),
        _ => {}
    }
    event
}
