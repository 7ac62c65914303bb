//! Seeded random runs of two controllers that ask for the bus, use it, let it go and wait for it, for
//! as long as one likes. They suit claims about waits: most requests stand until they are granted, and
//! each run has its own pace of ticks. They say nothing about what is right.

use std::collections::VecDeque;
use std::ops::RangeInclusive;

use crate::device::*;
use crate::event::make::*;
use crate::event::{read_event, Event};
use crate::phrases::{master_phrase, Bytes, Phrase};
use crate::rng::Rng;

/// The script of the world, after the masters' 0 and 1.
const WORLD: usize = 2;

/// A run that goes on. A model device goes along, so that the next event can suit the state.
pub struct Night {
    rng: Rng,
    scripts: [VecDeque<Bytes>; 3],
    /// In so many cases of a hundred the world around the controllers has its turn.
    pace: u64,
    /// Whether resets may come.
    resets: bool,
    /// The reserves that may be stored in RT. With none, no byte is stored there.
    stored: Option<RangeInclusive<u8>>,
}

impl Night {
    pub fn new(seed: u64, resets: bool, stored: Option<RangeInclusive<u8>>) -> Night {
        let mut rng = Rng::new(seed);
        let pace = rng.pick(&[15, 30, 50, 80, 95]);
        Night { rng, scripts: Default::default(), pace, resets, stored }
    }

    /// The next event for this device.
    pub fn next_event(&mut self, device: &Device) -> Bytes {
        loop {
            let event = self.choose_event(device);
            if !self.permits(device, event) {
                continue;
            }
            if read_event(event).is_ok_and(|event| event.is_reset()) {
                self.scripts = Default::default();
            }
            return event;
        }
    }

    /// No reset and no byte in RT but those that the run may have.
    fn permits(&self, device: &Device, event: Bytes) -> bool {
        let may_store = |m: usize, value: u8| {
            let is_stored = device.masters[m].pointer == 3 && device.owner() != Some(m);
            !is_stored || self.stored.as_ref().is_some_and(|stored| stored.contains(&value))
        };
        match read_event(event) {
            Ok(event) if event.is_reset() => self.resets,
            Ok(Event::Write { master, value }) => may_store(master, value),
            Ok(Event::Pair { values }) => may_store(0, values[0]) && may_store(1, values[1]),
            _ => true,
        }
    }

    /// The next event of one script. Two WRITE that stand ready may become a PAIR.
    fn choose_event(&mut self, device: &Device) -> Bytes {
        let who = if self.rng.percent(self.pace) { WORLD } else { self.rng.below(2) as usize };
        if self.scripts[who].is_empty() {
            let phrase = match who {
                WORLD => self.world_phrase(device),
                m => self.controller_phrase(device, m as u8),
            };
            self.scripts[who].extend(phrase);
        }
        let event = self.scripts[who].pop_front().unwrap_or(tick());
        if who == 0 && event[0] == 1 && self.rng.percent(30) {
            if let Some([1, 1, value, 0]) = self.scripts[1].front().copied() {
                self.scripts[1].pop_front();
                return pair(event[2], value);
            }
        }
        event
    }

    /// What a controller does next. One that waits mostly lets its request stand.
    fn controller_phrase(&mut self, device: &Device, m: u8) -> Phrase {
        let own = &device.masters[usize::from(m)];
        let owns = device.owner() == Some(usize::from(m));
        let rng = &mut self.rng;
        match rng.below(100) {
            0..=9 => master_phrase(rng, device, m),
            10..=14 if self.resets => {
                vec![command(m, 1), write(m, SMBUS_SWRST), general_call(m, 6)]
            }
            15..=24 => vec![command(m, rng.below(8) as u8), read(m), stop(m)],
            25..=28 => vec![command(m, 3), write(m, rng.byte()), stop(m)],
            29..=34 if owns => let_go(m),
            29..=30 if own.has(LOCK_REQ) => let_go(m),
            35..=54 if owns => contr(rng, m),
            55..=64 if owns => drive(rng, m),
            35..=99 if !own.has(LOCK_REQ) => self.ask(own.rt, m),
            _ => vec![tick()],
        }
    }

    /// A request, often with another reserve, if one may be stored; always so where there is none.
    fn ask(&mut self, rt: u8, m: u8) -> Phrase {
        let mut phrase = vec![];
        if let Some(stored) = self.stored.clone() {
            if rt == 0 || self.rng.percent(40) {
                let reserve = self.rng.between((*stored.start()).into(), (*stored.end()).into());
                phrase.extend([command(m, 3), write(m, reserve as u8), stop(m)]);
            }
        }
        phrase.extend(contr(&mut self.rng, m));
        phrase
    }

    /// Time and lines.
    fn world_phrase(&mut self, device: &Device) -> Phrase {
        let rng = &mut self.rng;
        if device.initialising().is_some() && rng.percent(50) {
            return vec![pulse(rng.below(2) as u8)];
        }
        if !device.is_idle() && rng.percent(30) {
            // A STOP, also where both lines rose at once and the bus stayed busy.
            return vec![lines(1, 0, 1), lines(1, 1, 1)];
        }
        match rng.below(100) {
            0..=69 => vec![tick(); rng.between(1, 4) as usize],
            70..=76 => vec![tick(); rng.between(5, 40) as usize],
            77 => vec![tick(); rng.between(41, 300) as usize],
            78..=86 => transfer(rng),
            87..=90 => vec![lines(1, 0, 1), lines(1, 1, 1)],
            91..=93 => vec![lines(0, 1, 1), tick(), lines(1, 1, 1)],
            94..=95 => vec![lines(rng.below(2) as u8, rng.below(2) as u8, 1)],
            96 if self.resets => vec![reset()],
            _ => vec![lines(1, 1, 1)],
        }
    }
}

/// A CONTR byte that asks, with any bits beside.
fn contr(rng: &mut Rng, m: u8) -> Phrase {
    vec![command(m, 1), write(m, rng.byte() | LOCK_REQ), stop(m)]
}

fn let_go(m: u8) -> Phrase {
    vec![command(m, 1), write(m, 0), stop(m)]
}

/// Lines pulled low by the owner, and mostly released again.
fn drive(rng: &mut Rng, m: u8) -> Phrase {
    let low = rng.pick(&[0x40, 0x80, 0x00]);
    let end = if rng.percent(80) { 0xC0 } else { low };
    vec![command(m, 2), write(m, low), write(m, 0x40), write(m, end), stop(m)]
}

/// START, some ticks, STOP.
fn transfer(rng: &mut Rng) -> Phrase {
    let during = vec![tick(); rng.below(7) as usize];
    [vec![lines(1, 1, 1), lines(1, 0, 1)], during, vec![lines(1, 1, 1)]].concat()
}
