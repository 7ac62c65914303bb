//! What a master has written so far, as far as it says who waits and why, and whose claim it is.
//!
//! The answers do not show a standing request. It follows from what was written and answered.
//! LOCK_REQ is set or cleared by a byte that is taken at register 1. It is cleared by a reset, and
//! also whenever the grant of its master ends: by its own byte, by a loss or by a reset. So we
//! follow each pointer, and look at the owner before and after. RT is followed in the same way; a
//! byte for it is not stored while its master is granted. A refused event changes nothing.

use gunwaleish::{Answer, Event, Master, Outcome, Part};

use super::part::{idle_limit, write_pointer_rolls};

const CONTR: u8 = 1;
const RT: u8 = 3;
const LOCK_REQ: u8 = 0x01;
const PRIORITY: u8 = 0x80;
const IDLE_TIMER_DIS: u8 = 0x20;

/// One master's part.
#[derive(Clone, Copy, Debug, PartialEq, Eq)]
pub struct Written {
    part: Part,
    /// The register that the next byte is for.
    pub pointer: u8,
    auto_increment: bool,
    /// The port is open: no STOP has come since the last COMMAND or READ.
    pub port_open: bool,
    /// LOCK_REQ.
    pub requests: bool,
    /// PRIORITY.
    pub priority: bool,
    /// IDLE_TIMER_DIS, whose 1 switches the idle timer on.
    pub idle_timer: bool,
    pub rt: u8,
}

pub fn is_reset(event: Event, answer: Answer) -> bool {
    // A general call is done only if it is a soft reset.
    let soft = matches!(event, Event::GeneralCall { .. }) && answer.outcome == Outcome::Done;
    event == Event::Reset || soft
}

/// Follows one event. `owner` is the granted master before it.
pub fn take(both: &mut [Written; 2], event: Event, answer: Answer, owner: Option<Master>) {
    if answer.outcome.is_refused() {
        return;
    }
    let granted = |m: Master| owner == Some(m);
    match event {
        Event::Command { master, code } => {
            both[master as usize].command(code, answer.outcome == Outcome::Done)
        }
        Event::Write { master, value } => both[master as usize].byte(value, granted(master)),
        Event::Pair { value0, value1 } => {
            both[0].byte(value0, granted(Master::Zero));
            both[1].byte(value1, granted(Master::One));
        }
        Event::Read { master } => both[master as usize].read(),
        Event::Stop { master } => both[master as usize].port_open = false,
        _ if is_reset(event, answer) => *both = both.map(|written| Written::new(written.part)),
        _ => {}
    }
    if let Some(master) = owner.filter(|_| answer.owner != owner) {
        both[master as usize].requests = false;
    }
}

impl Written {
    /// What stands there after power-up, and after a reset.
    pub fn new(part: Part) -> Written {
        Written {
            part,
            pointer: 0,
            auto_increment: false,
            port_open: false,
            requests: false,
            priority: false,
            idle_timer: false,
            rt: 0,
        }
    }

    /// The idle ticks at which the idle timer ends a grant without a reserve, if it is on.
    pub fn idle_limit(&self) -> Option<usize> {
        self.idle_timer.then_some(idle_limit(self.part))
    }

    fn command(&mut self, code: u8, acknowledged: bool) {
        self.port_open = true;
        if acknowledged {
            self.pointer = code & 0x07;
            self.auto_increment = code & 0x80 != 0;
        }
    }

    fn byte(&mut self, value: u8, granted: bool) {
        match self.pointer {
            CONTR => {
                self.requests = value & LOCK_REQ != 0;
                self.priority = value & PRIORITY != 0;
                self.idle_timer = value & IDLE_TIMER_DIS != 0;
            }
            RT if !granted => self.rt = value,
            _ => {}
        }
        let rises = self.pointer < 7 || write_pointer_rolls(self.part);
        if self.auto_increment && rises {
            self.pointer = (self.pointer + 1) % 8;
        }
    }

    fn read(&mut self) {
        self.port_open = true;
        if self.auto_increment {
            self.pointer = (self.pointer + 1) % 8;
        }
    }
}
