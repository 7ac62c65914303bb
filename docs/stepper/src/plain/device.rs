//! What the device remembers, and what follows from it.

use super::registers::{Registers, BUS_CONNECT};
use crate::reading::Kind;

#[derive(Clone, Copy, PartialEq, Eq)]
pub enum Switch {
    Open,
    /// With the count of PULSE of 0 so far.
    Initialising {
        master: usize,
        zeros: u8,
    },
    Closed {
        master: usize,
    },
}

#[derive(Clone, Copy)]
pub struct Levels {
    pub scl: bool,
    pub sda: bool,
}

/// A field for each thing the paper names.
pub struct Device {
    pub(super) kind: Kind,
    pub(super) masters: [Registers; 2],
    /// The outside levels.
    pub(super) outside: Levels,
    pub(super) int_in: bool,
    /// The drives: false pulls a line low.
    pub(super) drives: Levels,
    pub(super) hold: u8,
    pub(super) busy: bool,
    pub(super) scl_low: u16,
    pub(super) sda_low: u16,
    pub(super) idle: u8,
    pub(super) claimant: Option<usize>,
    /// The claimant is granted.
    pub(super) granted: bool,
    /// Why the claim was won: 1 sole requester, 2 priority, 3 last granted.
    pub(super) ground: u8,
    pub(super) reserve: u8,
    pub(super) last_granted: Option<usize>,
    pub(super) switch: Switch,
    pub(super) init_fail: bool,
}

impl Device {
    /// A device after power-up.
    pub fn new(kind: Kind) -> Device {
        let high = Levels {
            scl: true,
            sda: true,
        };
        Device {
            kind,
            masters: [Registers::new(); 2],
            outside: high,
            int_in: true,
            drives: high,
            hold: 0,
            busy: false,
            scl_low: 0,
            sda_low: 0,
            idle: 0,
            claimant: None,
            granted: false,
            ground: 0,
            reserve: 0,
            last_granted: None,
            switch: Switch::Open,
            init_fail: false,
        }
    }

    pub(super) fn owner(&self) -> Option<usize> {
        self.claimant.filter(|_| self.granted)
    }

    pub(super) fn levels(&self) -> Levels {
        Levels {
            scl: self.outside.scl && self.drives.scl && self.hold == 0,
            sda: self.outside.sda && self.drives.sda,
        }
    }

    pub(super) fn is_idle(&self) -> bool {
        let levels = self.levels();
        !self.busy && levels.scl && levels.sda
    }

    pub(super) fn is_hung(&self) -> bool {
        self.scl_low == 500 || self.sda_low == 501
    }

    /// The end of a grant, by a byte or by a loss.
    pub(super) fn end_grant(&mut self, owner: usize) {
        self.masters[owner].contr &= !BUS_CONNECT;
        self.drives = Levels {
            scl: true,
            sda: true,
        };
        self.claimant = None;
        self.granted = false;
        self.ground = 0;
    }
}
