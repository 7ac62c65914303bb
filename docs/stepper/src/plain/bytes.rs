//! What a byte written or read does.

use super::device::{Device, Levels};
use super::registers::{Port, BUS_CONNECT, LOCK_GRANT, LOCK_REQ};

impl Device {
    pub fn is_asserted(&self, m: usize) -> bool {
        self.int_status(m) & !self.masters[m].int_msk != 0
    }

    /// INT_STATUS, where bit 6 is BUS_HUNG.
    fn int_status(&self, m: usize) -> u8 {
        self.masters[m].int_status | u8::from(self.is_hung()) << 6
    }

    fn is_granted(&self, m: usize) -> bool {
        self.owner() == Some(m)
    }

    fn status(&self, m: usize) -> u8 {
        let levels = self.levels();
        u8::from(levels.sda) << 7
            | u8::from(levels.scl) << 6
            | u8::from(self.masters[m].mail_full) << 4
            | u8::from(!self.masters[1 - m].mail_full) << 3
            | u8::from(self.is_hung()) << 2
            | u8::from(self.init_fail) << 1
            | u8::from(self.is_granted(1 - m))
    }

    /// The byte at the pointer, and what reading it does.
    pub fn read_byte(&mut self, m: usize) -> u8 {
        let own = self.masters[m];
        let byte = match own.pointer {
            0 => 0x38,
            1 => own.contr | if self.is_granted(m) { LOCK_GRANT } else { 0 },
            2 => self.status(m),
            3 => own.rt,
            4 => self.int_status(m),
            5 => own.int_msk,
            6 => own.mail_low,
            _ => own.mail_high,
        };
        if own.pointer == 7 && own.mail_full {
            self.masters[m].mail_full = false;
            self.masters[1 - m].int_status |= 0x10;
        }
        self.masters[m].port = Port::Open;
        if own.auto_increment {
            self.masters[m].pointer = (own.pointer + 1) % 8;
        }
        byte
    }

    /// A byte written at the pointer. False is a byte that is not acknowledged.
    pub fn write_byte(&mut self, m: usize, value: u8) -> bool {
        let pointer = self.masters[m].pointer;
        match pointer {
            0 => {}
            1 => self.write_contr(m, value),
            2 => self.write_status(m, value),
            3 => {
                if !self.is_granted(m) {
                    self.masters[m].rt = value;
                }
            }
            4 => self.masters[m].int_status &= !value,
            5 => self.masters[m].int_msk = value & 0x7F,
            _ => self.write_mail(m, pointer, value),
        }
        if self.masters[m].auto_increment {
            let past_7 = self.kind.past_7();
            self.masters[m].pointer = if pointer == 7 { past_7 } else { pointer + 1 };
        }
        pointer != 0
    }

    fn write_contr(&mut self, m: usize, value: u8) {
        self.masters[m].contr = value & !LOCK_GRANT;
        if self.is_granted(m) {
            if value & BUS_CONNECT != 0 {
                self.drives = Levels {
                    scl: true,
                    sda: true,
                };
            }
            if value & LOCK_REQ == 0 {
                self.end_grant(m);
            }
        }
    }

    fn write_status(&mut self, m: usize, value: u8) {
        if value & 0x20 != 0 {
            self.masters[m].int_status |= 0x08;
        }
        if self.is_granted(m) && self.masters[m].contr & BUS_CONNECT == 0 {
            self.drives = Levels {
                scl: value & 0x40 != 0,
                sda: value & 0x80 != 0,
            };
        }
    }

    /// A byte for the partner's box, dropped while that is full.
    fn write_mail(&mut self, m: usize, pointer: u8, value: u8) {
        let partner = &mut self.masters[1 - m];
        if partner.mail_full {
            return;
        }
        if pointer == 6 {
            partner.mail_low = value;
        } else {
            partner.mail_high = value;
            partner.mail_full = true;
            partner.int_status |= 0x20;
        }
    }
}
