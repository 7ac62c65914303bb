//! The plain stepper: document 01 from top to bottom.
//!
//! One struct with a field for each thing the paper names, and for each event all seven parts of a
//! step in their order.

mod bytes;
mod device;
mod registers;

use crate::reading::{read, Report};
pub use device::Device;
use device::{Levels, Switch};
use registers::{Registers, BUS_CONNECT, BUS_INIT, IDLE_TIMER, LOCK_REQ, PRIORITY, SMBUS_DIS};

#[derive(Clone, Copy, PartialEq, Eq)]
enum Event {
    Command { master: usize, code: u8 },
    Write { master: usize, value: u8 },
    Read { master: usize },
    Stop { master: usize },
    Pair { values: [u8; 2] },
    Lines { scl: bool, sda: bool, int_in: bool },
    Tick,
    Pulse { sda: bool },
    Reset,
    GeneralCall { master: usize, code: u8 },
}

/// Runs a trace and writes four answer bytes an event. A refusal leaves the answers as they are.
pub fn run_trace(trace: &[u8], answers: &mut [u8]) -> Result<Report, u8> {
    let (report, events) = read(trace, answers.len())?;
    let mut device = Device::new(report.kind);
    for (event, answer) in events.chunks_exact(4).zip(answers.chunks_exact_mut(4)) {
        answer.copy_from_slice(&device.step([event[0], event[1], event[2], event[3]]));
    }
    Ok(report)
}

/// Four bytes as an event, or the number of the refusal.
fn decode(bytes: [u8; 4]) -> Result<Event, u8> {
    let [kind, a, b, c] = bytes;
    // The greatest value of each field.
    let most = match kind {
        0 | 1 | 9 => [1, 255, 0],
        2 | 3 | 7 => [1, 0, 0],
        4 => [255, 255, 0],
        5 => [1, 1, 1],
        6 | 8 => [0, 0, 0],
        _ => return Err(2),
    };
    if a > most[0] || b > most[1] || c > most[2] {
        return Err(3);
    }
    let master = usize::from(a);
    Ok(match kind {
        0 => Event::Command { master, code: b },
        1 => Event::Write { master, value: b },
        2 => Event::Read { master },
        3 => Event::Stop { master },
        4 => Event::Pair { values: [a, b] },
        5 => Event::Lines {
            scl: a == 1,
            sda: b == 1,
            int_in: c == 1,
        },
        6 => Event::Tick,
        7 => Event::Pulse { sda: a == 1 },
        8 => Event::Reset,
        _ => Event::GeneralCall { master, code: b },
    })
}

impl Device {
    /// Takes one event and gives its four answer bytes.
    pub fn step(&mut self, bytes: [u8; 4]) -> [u8; 4] {
        let event = match decode(bytes) {
            Ok(event) => event,
            Err(number) => return self.answer(number, 0),
        };
        let before = self.levels();
        let (outcome, byte_read) = match self.effect(event) {
            Ok(done) => done,
            Err(number) => return self.answer(number, 0),
        };
        let is_reset = matches!(event, Event::Reset)
            || matches!(event, Event::GeneralCall { .. } if outcome == 0);
        self.read_lines(before, is_reset);
        self.losses();
        if event == Event::Tick && self.scl_low == 35 {
            self.cut();
        }
        self.claim();
        self.grant();
        self.connection(match event {
            Event::Pulse { sda } => Some(sda),
            _ => None,
        });
        self.answer(outcome, byte_read)
    }

    fn answer(&self, outcome: u8, byte_read: u8) -> [u8; 4] {
        let mut third = self.ground << 5;
        if let Some(owner) = self.owner() {
            third |= owner as u8 + 1;
        }
        match self.switch {
            Switch::Open => {}
            Switch::Initialising { .. } => third |= 0x10,
            Switch::Closed { master } => third |= (master as u8 + 1) << 2,
        }
        let levels = self.levels();
        let fourth = u8::from(self.is_asserted(0))
            | u8::from(self.is_asserted(1)) << 1
            | u8::from(levels.scl) << 2
            | u8::from(levels.sda) << 3;
        [outcome, byte_read, third, fourth]
    }

    /// Part 1: the event's own effect. Outcome and byte read, or the number of the refusal.
    fn effect(&mut self, event: Event) -> Result<(u8, u8), u8> {
        match event {
            Event::Command { master, code } => {
                Ok((u8::from(!self.masters[master].command(code)), 0))
            }
            Event::Write { master, value } => {
                if !self.masters[master].is_open_for_writing() {
                    return Err(4);
                }
                Ok((u8::from(!self.write_byte(master, value)), 0))
            }
            Event::Read { master } => Ok((0, self.read_byte(master))),
            Event::Stop { master } => {
                self.masters[master].stop()?;
                Ok((0, 0))
            }
            Event::Pair { values } => self.pair(values),
            Event::Lines { scl, sda, int_in } => {
                self.lines(Levels { scl, sda }, int_in);
                Ok((0, 0))
            }
            Event::Tick => {
                self.tick();
                Ok((0, 0))
            }
            Event::Pulse { .. } => match self.switch {
                Switch::Initialising { .. } => Ok((0, 0)),
                _ => Err(4),
            },
            Event::Reset => {
                self.reset(0);
                Ok((0, 0))
            }
            Event::GeneralCall { master, code: 0x06 } => {
                self.soft_reset(master);
                Ok((0, 0))
            }
            Event::GeneralCall { .. } => Ok((1, 0)),
        }
    }

    /// The outside levels. A fall of INT_IN is told to both masters.
    #[inline(always)]
    fn lines(&mut self, outside: Levels, int_in: bool) {
        if self.int_in && !int_in {
            self.masters[0].int_status |= 0x01;
            self.masters[1].int_status |= 0x01;
        }
        self.outside = outside;
        self.int_in = int_in;
    }

    #[inline(always)]
    fn soft_reset(&mut self, sender: usize) {
        let holds = self.masters[sender].has_swrst();
        self.reset(if holds { 35 } else { 0 });
    }

    /// Both bytes see the state before the event. A bit that one clears and the other sets ends
    /// set: so a master that clears its INT_STATUS comes first.
    fn pair(&mut self, values: [u8; 2]) -> Result<(u8, u8), u8> {
        if !self.masters.iter().all(Registers::is_open_for_writing) {
            return Err(4);
        }
        let order = if self.masters[1].pointer == 4 {
            [1, 0]
        } else {
            [0, 1]
        };
        let mut all = true;
        for master in order {
            all &= self.write_byte(master, values[master]);
        }
        Ok((u8::from(!all), 0))
    }

    fn tick(&mut self) {
        let levels = self.levels();
        if self.is_idle() {
            self.idle = (self.idle + 1).min(self.kind.idle_limit());
        }
        if !levels.scl {
            self.scl_low = (self.scl_low + 1).min(500);
        }
        if !levels.sda {
            self.sda_low = (self.sda_low + 1).min(501);
        }
        self.reserve = self.reserve.saturating_sub(1);
        self.hold = self.hold.saturating_sub(1);
    }

    /// Restores everything but the outside levels and the kind of part.
    fn reset(&mut self, hold: u8) {
        let (outside, int_in) = (self.outside, self.int_in);
        *self = Device {
            outside,
            int_in,
            hold,
            ..Device::new(self.kind)
        };
    }

    /// Part 2: START, STOP and the counts.
    fn read_lines(&mut self, before: Levels, is_reset: bool) {
        let now = self.levels();
        if !is_reset && before.scl && now.scl && before.sda != now.sda {
            self.busy = !now.sda;
        }
        if now.scl {
            self.scl_low = 0;
        }
        if now.sda || before.scl != now.scl {
            self.sda_low = 0;
        }
        if !self.is_idle() {
            self.idle = 0;
        }
    }

    /// Part 3: the reserve runs out on an idle bus; with reserve 00h only the idle timer ends a grant.
    fn losses(&mut self) {
        let Some(owner) = self.owner() else {
            return;
        };
        let lost = match self.masters[owner].rt {
            0 => self.masters[owner].contr & IDLE_TIMER != 0 && self.idle == self.kind.idle_limit(),
            _ => self.reserve == 0 && self.is_idle(),
        };
        if lost {
            self.masters[owner].contr &= !LOCK_REQ;
            self.masters[owner].int_status |= 0x02;
            self.end_grant(owner);
        }
    }

    /// Part 4: SCL low for 35 ticks cuts the owner's connection, not its grant.
    fn cut(&mut self) {
        if let Some(owner) = self.owner() {
            if self.masters[owner].contr & SMBUS_DIS != 0 {
                self.masters[owner].contr &= !BUS_CONNECT;
            }
        }
    }

    /// Part 5: who claims, and on what ground.
    fn claim(&mut self) {
        let requests = |master: usize| self.masters[master].contr & LOCK_REQ != 0;
        if self.granted || self.claimant.is_some_and(requests) {
            return;
        }
        (self.claimant, self.ground) = match (requests(0), requests(1)) {
            (false, false) => (None, 0),
            (true, false) => (Some(0), 1),
            (false, true) => (Some(1), 1),
            (true, true) => self.winner(),
        };
    }

    /// The winner table: a row for each pair of priorities, a column for last granted none, 0, 1.
    fn winner(&self) -> (Option<usize>, u8) {
        const WINNERS: [[usize; 3]; 4] = [[0, 1, 0], [1, 1, 1], [0, 0, 0], [1, 1, 0]];
        let [first, second] = [0, 1].map(|m: usize| self.masters[m].contr & PRIORITY != 0);
        let row = 2 * usize::from(first) + usize::from(second);
        let column = self.last_granted.map_or(0, |last| last + 1);
        (
            Some(WINNERS[row][column]),
            if first == second { 3 } else { 2 },
        )
    }

    /// Part 6: a claimant with its port at rest and no hold is granted.
    fn grant(&mut self) {
        let Some(claimant) = self.claimant.filter(|_| !self.granted && self.hold == 0) else {
            return;
        };
        if self.masters[claimant].is_at_rest() {
            self.granted = true;
            self.reserve = self.masters[claimant].rt;
            self.idle = 0;
            self.last_granted = Some(claimant);
            self.masters[claimant].int_status |= 0x04;
        }
    }

    /// Part 7: the switch follows grant and BUS_CONNECT, by way of an initialisation.
    fn connection(&mut self, pulse: Option<bool>) {
        let joined = self
            .owner()
            .filter(|&m| self.masters[m].contr & BUS_CONNECT != 0);
        let Some(owner) = joined else {
            self.switch = Switch::Open;
            return;
        };
        match self.switch {
            Switch::Initialising { master, zeros } if master == owner => {
                self.initialise(owner, zeros, pulse);
            }
            Switch::Closed { master } if master == owner => {}
            _ if self.masters[owner].contr & BUS_INIT != 0 => {
                self.init_fail = false;
                self.switch = Switch::Initialising {
                    master: owner,
                    zeros: 0,
                };
            }
            _ => self.switch = Switch::Closed { master: owner },
        }
    }

    fn initialise(&mut self, owner: usize, zeros: u8, pulse: Option<bool>) {
        match pulse {
            None => {}
            Some(true) => {
                self.masters[owner].contr &= !BUS_INIT;
                self.switch = Switch::Closed { master: owner };
            }
            Some(false) if zeros == 8 => {
                self.masters[owner].contr &= !(BUS_INIT | BUS_CONNECT);
                self.init_fail = true;
                self.switch = Switch::Open;
            }
            Some(false) => {
                self.switch = Switch::Initialising {
                    master: owner,
                    zeros: zeros + 1,
                };
            }
        }
    }
}
