//! A controller's script as moves on its bus.

use super::bus::{Setting, Sign};
use super::moves::{Gate, Manner, Move, Sda, Wait};
use super::script::Item;
use crate::event::make::*;
use crate::rng::Rng;

/// How long an event of a random script waits for the partner's, and one of `Item::Pair`.
const PATIENCE: u64 = 200;
const LONG_PATIENCE: u64 = 2_000;

struct Planner<'a> {
    setting: Setting,
    master: u8,
    manner: Manner,
    rng: &'a mut Rng,
    moves: Vec<Move>,
    /// The levels after the last move. What the chip makes of SDA is not known here.
    scl: u8,
    sda: Option<u8>,
    /// A START has come already, so the next transfer needs none.
    started: bool,
    /// Between START and STOP.
    inside: bool,
    /// A COMMAND or READ has come since the last STOP.
    due: bool,
}

/// The moves of a script on a bus that begins with these levels, SCL in bit 0 and SDA in bit 1.
pub fn plan(
    setting: Setting,
    master: usize,
    manner: Manner,
    rng: &mut Rng,
    first: u8,
    script: &[Item],
) -> Vec<Move> {
    let mut planner = Planner {
        setting,
        master: master as u8,
        manner,
        rng,
        moves: vec![],
        scl: first & 1,
        sda: Some(first >> 1),
        started: false,
        inside: false,
        due: false,
    };
    script.iter().for_each(|item| planner.item(item));
    planner.moves
}

impl Planner<'_> {
    fn item(&mut self, item: &Item) {
        match item {
            Item::Write(bytes) => self.write(bytes, None),
            Item::Pair(bytes) => self.write(bytes, Some(Wait::Partner(LONG_PATIENCE))),
            Item::Read(bytes) => self.read(*bytes),
            Item::Other(first, bytes) => self.other(*first, bytes),
            Item::Call(bytes) => self.call(bytes),
            Item::Stop => self.stop(),
            Item::Rest(samples) => self.stay(Gate::Open, *samples),
            Item::Until(tick) => self.stay(Gate::After(tick * self.setting.samples_per_tick), 1),
            Item::Clocks(bits) => bits.iter().for_each(|bit| self.clock(Sda::Level(*bit))),
            Item::HeldLow(samples) => self.held_low(*samples),
            Item::Cut { clocks, by_start } => self.cut(*clocks, *by_start),
        }
    }

    fn write(&mut self, bytes: &[u8], wait: Option<Wait>) {
        self.start();
        self.byte(2 * self.setting.address, Sda::Level(0), None, None);
        for (place, &value) in bytes.iter().enumerate() {
            let event = match place {
                0 => command(self.master, value),
                _ => write(self.master, value),
            };
            self.byte(value, Sda::Ack(event), Some(event), wait);
            self.due = true;
        }
    }

    /// The controller acknowledges each byte but the last, so that the chip lets go of SDA.
    fn read(&mut self, bytes: usize) {
        self.start();
        self.byte(2 * self.setting.address + 1, Sda::Level(0), None, None);
        for place in 1..=bytes {
            let fall = self.moves.len();
            (0..8).rev().for_each(|bit| self.clock(Sda::Chip(bit)));
            self.clock(Sda::Level(u8::from(place == bytes)));
            self.moves[fall].gate = Gate::Latch;
            let wait = if self.rng.percent(self.manner.aims) { Wait::Tick } else { Wait::No };
            let event = Some(read(self.master));
            self.last(|ninth| {
                *ninth = Move { gate: Gate::Answer, wait, gives: event, ..ninth.clone() };
                ninth.sign = Some(Sign::Byte(0));
            });
            self.due = true;
        }
    }

    fn other(&mut self, first: u8, bytes: &[u8]) {
        self.start();
        for &value in [first].iter().chain(bytes) {
            let ninth = Sda::Level(self.rng.below(2) as u8);
            self.byte(value, ninth, None, None);
        }
    }

    fn call(&mut self, bytes: &[u8]) {
        self.start();
        self.byte(0x00, Sda::Level(0), None, None);
        for (place, &value) in bytes.iter().enumerate() {
            let event = general_call(self.master, value);
            match place {
                0 => self.byte(value, Sda::Ack(event), Some(event), None),
                _ => self.byte(value, Sda::Level(1), None, None),
            }
        }
    }

    /// Eight clocks with the byte's bits, and the ninth, at which the event stands.
    fn byte(&mut self, value: u8, ninth: Sda, gives: Option<[u8; 4]>, wait: Option<Wait>) {
        (0..8).rev().for_each(|place| self.clock(Sda::Level((value >> place) & 1)));
        self.clock(ninth);
        let wait = wait.unwrap_or_else(|| self.any_wait());
        self.last(|last| {
            last.sign = Some(Sign::Byte(value));
            if gives.is_some() {
                *last = Move { gate: Gate::Event, wait, gives, ..last.clone() };
            }
        });
    }

    fn any_wait(&mut self) -> Wait {
        match self.rng.below(100) {
            chance if chance < self.manner.meets => Wait::Partner(PATIENCE),
            chance if chance < self.manner.meets + self.manner.aims => Wait::Tick,
            _ => Wait::No,
        }
    }

    fn start(&mut self) {
        if std::mem::take(&mut self.started) {
            return;
        }
        self.clock_to(1);
        self.level(1, Sda::Level(0));
        self.last(|last| last.sign = Some(Sign::Start));
        self.inside = true;
    }

    fn stop(&mut self) {
        self.clock_to(0);
        self.stop_here(false);
    }

    fn stop_here(&mut self, fault: bool) {
        self.level(1, Sda::Level(1));
        let gives = std::mem::take(&mut self.due).then_some(stop(self.master));
        let wait = self.any_wait();
        let sign = std::mem::take(&mut self.inside).then_some(Sign::Stop);
        self.last(|last| {
            *last = Move { gate: Gate::Event, wait, gives, sign, fault, ..last.clone() };
        });
        self.started = false;
    }

    /// A byte that is broken off: its last clock leaves SDA so that the condition can come.
    fn cut(&mut self, clocks: usize, by_start: bool) {
        if !self.inside {
            self.start();
        }
        for _ in 1..clocks {
            let bit = self.rng.below(2) as u8;
            self.clock(Sda::Level(bit));
        }
        // Now and then the controller stalls in the byte, with SCL low, before it gives up.
        if self.rng.percent(30) {
            let held = self.rng.between(1, 3000);
            self.level(0, Sda::Keep);
            self.last(|last| last.lasts = held);
        }
        self.clock(Sda::Level(u8::from(by_start)));
        if !by_start {
            return self.stop_here(true);
        }
        self.level(1, Sda::Level(0));
        self.last(|last| *last = Move { sign: Some(Sign::Start), fault: true, ..last.clone() });
        self.started = true;
    }

    /// Both lines fall in one sample, which is no START. They rise one after the other or together.
    fn held_low(&mut self, samples: u64) {
        self.level(0, Sda::Level(0));
        self.last(|last| last.lasts = samples);
        if self.rng.percent(50) {
            self.level(1, Sda::Level(0));
        }
        self.level(1, Sda::Level(1));
    }

    /// One clock before a START or STOP where the lines are not right for it, and sometimes where
    /// they are: "one rising clock before a START or STOP belongs to that condition" (#104).
    fn clock_to(&mut self, bit: u8) {
        let ready = self.scl == 1 && self.sda == Some(bit);
        if !ready || (self.manner.slowest > 1 && self.rng.percent(20)) {
            self.clock(Sda::Level(bit));
        }
    }

    /// One clock: SDA changes as SCL falls or while it is low, or, by a controller, as it rises.
    fn clock(&mut self, bit: Sda) {
        let ways = match (self.manner.slowest, bit) {
            (1, _) => 1,
            (_, Sda::Level(_)) => 3,
            _ => 2,
        };
        let way = self.rng.below(ways);
        if way > 0 {
            self.level(0, Sda::Keep);
        }
        if self.rng.percent(self.manner.glitches) {
            let level = self.rng.below(2) as u8;
            self.level(0, Sda::Level(level));
        }
        if way == 2 {
            return self.level(1, bit);
        }
        self.level(0, bit);
        self.level(1, Sda::Keep);
    }

    fn stay(&mut self, gate: Gate, samples: u64) {
        self.level(self.scl, Sda::Keep);
        self.last(|last| *last = Move { gate, lasts: samples, ..last.clone() });
    }

    fn level(&mut self, scl: u8, sda: Sda) {
        let lasts = self.rng.between(1, self.manner.slowest);
        let plain = (Gate::Open, Wait::No);
        self.scl = scl;
        self.sda = match sda {
            Sda::Keep => self.sda,
            Sda::Level(level) => Some(level),
            _ => None,
        };
        let (gate, wait) = plain;
        self.moves.push(Move {
            scl,
            sda,
            lasts,
            gate,
            wait,
            gives: None,
            sign: None,
            fault: false,
        });
    }

    fn last(&mut self, change: impl FnOnce(&mut Move)) {
        change(self.moves.last_mut().expect("a move was made"));
    }
}
