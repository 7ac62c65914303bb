//! The chip that is played: a right one, or one that errs in a single thing. It steps the independent
//! model and spoils what it shows, or what the model has.

use super::bus::{answer_of, DOWN_SCL, DOWN_SDA};
use crate::device::*;
use crate::event::make::general_call;
use crate::part::Kind;

/// In what a chip errs.
#[derive(Clone, Copy, Debug, PartialEq, Eq)]
pub enum Flaw {
    None,
    /// It shows the byte of the READ before, on each bus; at first 00h.
    LateByOne,
    /// A bit of a register reads always so.
    Stuck {
        register: u8,
        bit: u8,
        high: bool,
    },
    /// Each reserve ends one tick early.
    ReserveShort,
    /// The idle timer takes the bus at 100 idle ticks, whichever part it is.
    IdleAt100,
    /// It is the other kind of part.
    OtherKind,
    /// BUS_HUNG as it was before #102: SDA low for 500 ticks, also while the clock runs.
    HungEager,
    /// The mailbox empties when its low byte is read, and not with the high one.
    MailAtLow,
    /// RT 00h as a reservation that has run out.
    RtZeroRunsOut,
    /// The grant comes with the byte that asks for it, and not at the STOP.
    GrantAtByte,
}

pub struct Chip {
    pub device: Device,
    flaw: Flaw,
    /// What each master's last READ gave.
    last: [u8; 2],
    /// Ticks since SDA went low, whatever SCL did.
    sda_low: i64,
}

/// The registers of which a bit may be stuck: CONTR, STATUS and INT_STATUS.
const OF_BITS: [u8; 3] = [1, 2, 4];

/// All chips that err.
pub fn flaws() -> Vec<Flaw> {
    let stuck = |register: u8| {
        let bits = (0..8).flat_map(|bit| [(bit, false), (bit, true)]);
        bits.map(move |(bit, high)| Flaw::Stuck { register, bit, high })
    };
    let mut flaws = vec![Flaw::LateByOne, Flaw::ReserveShort, Flaw::IdleAt100, Flaw::OtherKind];
    flaws.extend([Flaw::HungEager, Flaw::MailAtLow, Flaw::RtZeroRunsOut, Flaw::GrantAtByte]);
    flaws.extend(OF_BITS.into_iter().flat_map(stuck));
    flaws
}

impl Flaw {
    /// Its name, as a file may have it.
    pub fn name(self) -> String {
        match self {
            Flaw::None => "right".to_string(),
            Flaw::LateByOne => "late-by-one".to_string(),
            Flaw::Stuck { register, bit, high } => {
                let name = ["id", "contr", "status", "rt", "int-status"][register as usize];
                format!("stuck-{name}-{bit}-{}", if high { "high" } else { "low" })
            }
            Flaw::ReserveShort => "reserve-short".to_string(),
            Flaw::IdleAt100 => "idle-at-100".to_string(),
            Flaw::OtherKind => "other-kind".to_string(),
            Flaw::HungEager => "hung-eager".to_string(),
            Flaw::MailAtLow => "mail-at-low".to_string(),
            Flaw::RtZeroRunsOut => "rt-zero-runs-out".to_string(),
            Flaw::GrantAtByte => "grant-at-byte".to_string(),
        }
    }

    /// The bits that are 0 in every capture: CONTR's BUS_INIT, which no script sets, STATUS bit 5 and
    /// INT_STATUS bit 7, which read 0, and BUS_INIT_FAIL, for which a PULSE is wanted. A chip in which
    /// one of them is stuck low is a right one to who listens.
    pub fn never_shows(self) -> bool {
        matches!(
            self,
            Flaw::Stuck { register: 1, bit: 3, high: false }
                | Flaw::Stuck { register: 2, bit: 1 | 5, high: false }
                | Flaw::Stuck { register: 4, bit: 7, high: false }
        )
    }
}

impl Chip {
    /// A fresh chip that is said to be of this kind.
    pub fn new(kind: Kind, flaw: Flaw) -> Chip {
        let kind = match (flaw, kind) {
            (Flaw::OtherKind, Kind::Pca9641) => Kind::Tpt29641,
            (Flaw::OtherKind, Kind::Tpt29641) => Kind::Pca9641,
            _ => kind,
        };
        Chip { device: Device::power_up_of(kind), flaw, last: [0; 2], sda_low: 0 }
    }

    /// The byte that it shows to a master that reads now.
    pub fn shows(&self, master: usize) -> u8 {
        let right = answer_of(&self.device, master);
        let pointer = self.device.masters[master].pointer;
        match self.flaw {
            Flaw::LateByOne => self.last[master],
            Flaw::Stuck { register, bit, high: true } if register == pointer => right | 1 << bit,
            Flaw::Stuck { register, bit, .. } if register == pointer => right & !(1 << bit),
            Flaw::HungEager if self.sda_low >= 500 && pointer == 2 => right | 0x04,
            Flaw::HungEager if self.sda_low >= 500 && pointer == 4 => right | INT_HUNG,
            _ => right,
        }
    }

    /// Whether it acknowledges an event that came now.
    pub fn acknowledges(&self, event: [u8; 4]) -> bool {
        self.device.clone().step(event)[0] == 0
    }

    /// The downstream lines that it pulls low.
    pub fn pulls(&self) -> u8 {
        let held = !self.device.drives.scl || self.device.hold > 0;
        bit(held, DOWN_SCL) | bit(!self.device.drives.sda, DOWN_SDA)
    }

    pub fn step(&mut self, event: [u8; 4]) {
        let owner = self.device.owner();
        let sda_was_low = !self.device.levels().sda;
        match self.flaw {
            Flaw::MailAtLow => self.mail_at_low(event),
            Flaw::IdleAt100 => self.idle_at_100(event),
            _ => self.own_step(event),
        }
        if self.flaw == Flaw::GrantAtByte && matches!(event[0], 1 | 4) {
            self.grant_with_ports_open();
        }
        if self.device.owner() != owner {
            self.new_grant();
        }
        self.sda_low += i64::from(event[0] == 6 && sda_was_low);
        if self.device.levels().sda {
            self.sda_low = 0;
        }
    }

    fn own_step(&mut self, event: [u8; 4]) {
        let answer = self.device.step(event);
        if event[0] == 2 {
            self.last[usize::from(event[1])] = answer[1];
        }
    }

    /// A grant was just made, if there is an owner.
    fn new_grant(&mut self) {
        let Some(grant) = &mut self.device.grant else {
            return;
        };
        match self.flaw {
            Flaw::ReserveShort => {
                self.device.reserve_count = (self.device.reserve_count - 1).max(0);
            }
            // A reserve of which no tick is left ends where the bus is next seen idle.
            Flaw::RtZeroRunsOut if grant.reserve == 0 => grant.reserve = 1,
            _ => {}
        }
    }

    /// Its hundredth idle tick is the last one that it counts.
    fn idle_at_100(&mut self, event: [u8; 4]) {
        if event[0] == 6 && self.device.is_idle() && self.device.idle_count == 99 {
            self.device.idle_count = self.device.kind.idle_ticks() - 1;
        }
        self.own_step(event);
    }

    fn mail_at_low(&mut self, event: [u8; 4]) {
        let master = usize::from(event[1] & 1);
        let own = &mut self.device.masters[master];
        let (pointer, full) = (own.pointer, own.mail_full);
        if event[0] != 2 || !full || pointer < 6 {
            return self.own_step(event);
        }
        // Of a full box the model would take the high byte; so it is shown an empty one.
        own.mail_full = false;
        self.own_step(event);
        match pointer {
            6 => self.device.masters[1 - master].int_status |= INT_MAIL_EMPTIED,
            _ => self.device.masters[master].mail_full = true,
        }
    }

    /// A general call that means nothing has all parts of a step but the first: with the ports shown
    /// at rest a claimant is granted in it.
    fn grant_with_ports_open(&mut self) {
        let ports = [0, 1].map(|m| self.device.masters[m].port);
        self.device.masters.iter_mut().for_each(|master| master.port = Port::AtRest);
        self.device.step(general_call(0, 0xFF));
        self.device.masters.iter_mut().zip(ports).for_each(|(master, port)| master.port = port);
    }
}
