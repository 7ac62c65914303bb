//! What the device remembers, and what follows from that.
//! Document 01, "Registers, one set per master" and "Answers and the trace".

use crate::claimant::Claim;
use crate::part::Kind;

/// Bits of CONTR. Bit 1, LOCK_GRANT, is computed and never stored.
pub const PRIORITY: u8 = 0x80;
pub const SMBUS_DIS: u8 = 0x40;
pub const IDLE_TIMER_DIS: u8 = 0x20;
pub const SMBUS_SWRST: u8 = 0x10;
pub const BUS_INIT: u8 = 0x08;
pub const BUS_CONNECT: u8 = 0x04;
pub const LOCK_GRANT: u8 = 0x02;
pub const LOCK_REQ: u8 = 0x01;

/// Bits of INT_STATUS. Bit 6 equals BUS_HUNG, so it is computed.
pub const INT_HUNG: u8 = 0x40;
pub const INT_MAIL_FULL: u8 = 0x20;
pub const INT_MAIL_EMPTIED: u8 = 0x10;
pub const INT_TEST: u8 = 0x08;
pub const INT_GRANTED: u8 = 0x04;
pub const INT_LOST: u8 = 0x02;
pub const INT_IN: u8 = 0x01;

/// "SCL low for 500 ms": the SCL count stops at 500. "More than 500 ms" for SDA: its count "must
/// reach 501, where it stops" (#102).
pub const SCL_HUNG_TICKS: i64 = 500;
pub const SDA_HUNG_TICKS: i64 = 501;
/// A hold lasts 35 ticks, and SCL low for 35 ticks is a time-out.
pub const HOLD_TICKS: i64 = 35;
pub const TIMEOUT_TICKS: i64 = 35;

/// How a master's port stands between START and STOP.
#[derive(Clone, Copy, Debug, PartialEq, Eq)]
pub enum Port {
    AtRest,
    /// Open, but not for writing.
    Open,
    OpenForWriting,
}

/// The levels of the two bus lines. True is high, or not pulled low.
#[derive(Clone, Copy, Debug, PartialEq, Eq)]
pub struct Levels {
    pub scl: bool,
    pub sda: bool,
}

pub const BOTH_HIGH: Levels = Levels { scl: true, sda: true };

/// One master's registers, its own mailbox and its port.
#[derive(Clone, Debug, PartialEq, Eq)]
pub struct Master {
    /// CONTR without LOCK_GRANT.
    pub contr: u8,
    pub rt: u8,
    /// INT_STATUS bits 5 to 0.
    pub int_status: u8,
    pub int_msk: u8,
    pub mail_low: u8,
    pub mail_high: u8,
    pub mail_full: bool,
    pub port: Port,
    pub pointer: u8,
    pub auto_increment: bool,
}

/// A grant as it was made.
#[derive(Clone, Debug, PartialEq, Eq)]
pub struct Grant {
    pub owner: usize,
    /// RT at the grant. 0 is a grant without a reserve.
    pub reserve: i64,
}

/// The switch, of which one side at most is closed.
#[derive(Clone, Copy, Debug, PartialEq, Eq)]
pub enum Switch {
    Apart,
    Closed(usize),
    /// Apart until an initialisation for this master ends. It has had so many PULSE of 0.
    Initialising {
        master: usize,
        zeros: i64,
    },
}

#[derive(Clone, Debug, PartialEq, Eq)]
pub struct Device {
    /// "The device record gains the kind of part, and every step keeps it" (#105).
    pub kind: Kind,
    pub masters: [Master; 2],
    /// The outside levels, the connected master included.
    pub outside: Levels,
    pub int_in: bool,
    /// The drives of the granted master. True is released.
    pub drives: Levels,
    /// Ticks for which SCL is still held low after a soft reset.
    pub hold: i64,
    pub busy: bool,
    /// Ticks since SCL went low.
    pub scl_low_count: i64,
    /// Ticks since SDA went low or SCL last changed, whichever came later (#102).
    pub sda_low_count: i64,
    pub idle_count: i64,
    /// Ticks left of the last grant's reserve. Every TICK takes one from it, if it is above 0.
    pub reserve_count: i64,
    /// The claimant and the ground of its claim, "kept while the grant lasts" (#107).
    pub claim: Option<Claim>,
    pub grant: Option<Grant>,
    pub last_granted: Option<usize>,
    pub switch: Switch,
    pub bus_init_fail: bool,
}

impl Master {
    /// "5 INT_MSK, reset 7Fh [...] All others reset to 0."
    fn after_reset() -> Master {
        Master {
            contr: 0,
            rt: 0,
            int_status: 0,
            int_msk: 0x7F,
            mail_low: 0,
            mail_high: 0,
            mail_full: false,
            port: Port::AtRest,
            pointer: 0,
            auto_increment: false,
        }
    }

    pub fn has(&self, contr_bit: u8) -> bool {
        self.contr & contr_bit != 0
    }
}

impl Device {
    /// A fresh PCA9641.
    pub fn power_up() -> Device {
        Device::power_up_of(Kind::Pca9641)
    }

    /// "Power-up is a reset with all outside levels 1."
    pub fn power_up_of(kind: Kind) -> Device {
        Device {
            kind,
            masters: [Master::after_reset(), Master::after_reset()],
            outside: BOTH_HIGH,
            int_in: true,
            drives: BOTH_HIGH,
            hold: 0,
            busy: false,
            scl_low_count: 0,
            sda_low_count: 0,
            idle_count: 0,
            reserve_count: 0,
            claim: None,
            grant: None,
            last_granted: None,
            switch: Switch::Apart,
            bus_init_fail: false,
        }
    }

    /// "Resets restore everything but outside levels." The kind of part is no state that they
    /// restore (#105).
    pub fn reset(&mut self, hold: i64) {
        let fresh = Device::power_up_of(self.kind);
        *self = Device { outside: self.outside, int_in: self.int_in, hold, ..fresh };
    }

    /// "Levels: outside, drives and hold, low if any is low."
    pub fn levels(&self) -> Levels {
        Levels {
            scl: self.outside.scl && self.drives.scl && self.hold == 0,
            sda: self.outside.sda && self.drives.sda,
        }
    }

    /// "idle means not busy and both high".
    pub fn is_idle(&self) -> bool {
        !self.busy && self.levels() == BOTH_HIGH
    }

    /// BUS_HUNG: a low count at its end. Nothing is kept, so the flag goes with the counts (#102).
    pub fn is_hung(&self) -> bool {
        self.scl_low_count == SCL_HUNG_TICKS || self.sda_low_count == SDA_HUNG_TICKS
    }

    /// The granted master.
    pub fn owner(&self) -> Option<usize> {
        self.grant.as_ref().map(|grant| grant.owner)
    }

    /// The master for whom grant and BUS_CONNECT are both true ("7. Connection").
    pub fn owner_with_connect(&self) -> Option<usize> {
        self.owner().filter(|&m| self.masters[m].has(BUS_CONNECT))
    }

    /// The master whose switch is closed. It is open during an initialisation.
    pub fn closed_for(&self) -> Option<usize> {
        match self.switch {
            Switch::Closed(m) => Some(m),
            _ => None,
        }
    }

    /// The master whose switch is closed or who initialises. After a step of a run it is the one for
    /// whom grant and BUS_CONNECT are both true.
    pub fn switch_of(&self) -> Option<usize> {
        match self.switch {
            Switch::Apart => None,
            Switch::Closed(m) => Some(m),
            Switch::Initialising { master, .. } => Some(master),
        }
    }

    /// While initialising: how many PULSE of 0 this initialisation has had.
    pub fn initialising(&self) -> Option<i64> {
        match self.switch {
            Switch::Initialising { zeros, .. } => Some(zeros),
            _ => None,
        }
    }

    /// "An output is asserted exactly if some status bit of 6 to 0 that is set has mask 0."
    pub fn interrupt_asserted(&self, m: usize) -> bool {
        self.register(m, 4) & !self.masters[m].int_msk & 0x7F != 0
    }

    /// The byte a READ of a register gives, without what the READ does.
    pub fn register(&self, m: usize, pointer: u8) -> u8 {
        let own = &self.masters[m];
        match pointer {
            0 => 0x38,
            1 => own.contr | bit(self.owner() == Some(m), LOCK_GRANT),
            2 => self.status(m),
            3 => own.rt,
            4 => own.int_status | bit(self.is_hung(), INT_HUNG),
            5 => own.int_msk,
            6 => own.mail_low,
            _ => own.mail_high,
        }
    }

    /// STATUS as master m reads it. Bit 5 reads 0.
    fn status(&self, m: usize) -> u8 {
        let partner = 1 - m;
        let levels = self.levels();
        bit(levels.sda, 0x80)
            | bit(levels.scl, 0x40)
            | bit(self.masters[m].mail_full, 0x10)
            | bit(!self.masters[partner].mail_full, 0x08)
            | bit(self.is_hung(), 0x04)
            | bit(self.bus_init_fail, 0x02)
            | bit(self.owner() == Some(partner), 0x01)
    }

    /// The four answer bytes, read from the device after the step.
    pub fn answer(&self, outcome: u8, byte_read: u8) -> [u8; 4] {
        let who = |m: Option<usize>| match m {
            None => 0,
            Some(0) => 1,
            Some(_) => 2,
        };
        let levels = self.levels();
        // The ground "stands in bits 5 and 6 of the third answer byte" (#107).
        let bus = who(self.owner())
            | (who(self.closed_for()) << 2)
            | bit(self.initialising().is_some(), 0x10)
            | (self.ground() << 5);
        let pins = bit(self.interrupt_asserted(0), 0x01)
            | bit(self.interrupt_asserted(1), 0x02)
            | bit(levels.scl, 0x04)
            | bit(levels.sda, 0x08);
        [outcome, byte_read, bus, pins]
    }
}

/// The given bit if the condition is true, else 0.
pub fn bit(condition: bool, value: u8) -> u8 {
    if condition {
        value
    } else {
        0
    }
}
