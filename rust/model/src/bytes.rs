//! What a byte written or read does. Document 01, "Registers" and "Events".
//!
//! A written byte is first judged on the device as it stands. The judgement is
//! a list of changes. Only then are the changes made. So the two bytes of a
//! PAIR both act on the state before the event (reading 15).

use crate::device::*;

/// One thing that a written byte changes.
#[derive(Clone, Copy, Debug, PartialEq, Eq)]
pub enum Change {
    Contr {
        master: usize,
        value: u8,
    },
    EndGrant,
    Drives(Levels),
    Rt {
        master: usize,
        value: u8,
    },
    IntMsk {
        master: usize,
        value: u8,
    },
    ClearInterrupts {
        master: usize,
        bits: u8,
    },
    RaiseInterrupts {
        master: usize,
        bits: u8,
    },
    MailLow {
        to: usize,
        value: u8,
    },
    /// Writing the high byte fills the box.
    MailHigh {
        to: usize,
        value: u8,
    },
}

impl Device {
    /// Makes one or two WRITE bytes act at one instant and gives the outcome.
    pub fn write_bytes(&mut self, bytes: &[(usize, u8)]) -> u8 {
        let judged: Vec<Option<Vec<Change>>> =
            bytes.iter().map(|&(m, value)| self.judge_byte(m, value)).collect();
        let acknowledged = judged.iter().all(|byte| byte.is_some());
        let changes: Vec<Change> = judged.into_iter().flatten().flatten().collect();
        // "A bit one clears and the other sets ends set": so all clearing is first.
        let clears = |c: &&Change| matches!(c, Change::ClearInterrupts { .. });
        changes.iter().filter(clears).for_each(|c| self.make(*c));
        changes.iter().filter(|c| !clears(c)).for_each(|c| self.make(*c));
        for &(m, _) in bytes {
            self.raise_pointer_after_write(m);
        }
        // "Outcome 1 if either byte is not acknowledged, both take effect."
        bit(!acknowledged, 1)
    }

    /// The changes of one byte of master m. `None` is a byte not acknowledged.
    fn judge_byte(&self, m: usize, value: u8) -> Option<Vec<Change>> {
        let partner = 1 - m;
        let granted = self.owner() == Some(m);
        let box_is_full = self.masters[partner].mail_full;
        Some(match self.masters[m].pointer {
            // "Pointer 0 is not acknowledged."
            0 => return None,
            1 => self.judge_contr(m, value),
            2 => self.judge_status(m, value),
            // "A write of RT while granted is acknowledged and not stored."
            3 if granted => vec![],
            3 => vec![Change::Rt { master: m, value }],
            // "Bits 5 to 0 stay until written 1." Bit 6 is computed.
            4 => vec![Change::ClearInterrupts { master: m, bits: value & 0x3F }],
            // "Bit 7 reads 0."
            5 => vec![Change::IntMsk { master: m, value: value & 0x7F }],
            // "Acknowledged but dropped while that box is full."
            _ if box_is_full => vec![],
            6 => vec![Change::MailLow { to: partner, value }],
            // "Writing 7 fills it and sets the partner's bit 5."
            _ => vec![
                Change::MailHigh { to: partner, value },
                Change::RaiseInterrupts { master: partner, bits: INT_MAIL_FULL },
            ],
        })
    }

    /// CONTR. LOCK_GRANT is read only, so its bit is not stored.
    fn judge_contr(&self, m: usize, value: u8) -> Vec<Change> {
        let mut changes = vec![Change::Contr { master: m, value: value & !LOCK_GRANT }];
        if self.owner() == Some(m) {
            // Drives "are released when the granted master writes BUS_CONNECT 1".
            if value & BUS_CONNECT != 0 {
                changes.push(Change::Drives(BOTH_HIGH));
            }
            // "Clearing LOCK_REQ while granted ends the grant in that byte."
            // It stands last, so BUS_CONNECT of this very byte ends 0 (reading 1).
            if value & LOCK_REQ == 0 {
                changes.push(Change::EndGrant);
            }
        }
        changes
    }

    /// STATUS. Bit 5 acts for every writer (reading 13).
    fn judge_status(&self, m: usize, value: u8) -> Vec<Change> {
        let mut changes = vec![];
        if value & 0x20 != 0 {
            changes.push(Change::RaiseInterrupts { master: m, bits: INT_TEST });
        }
        // "Only while the writer is granted with BUS_CONNECT 0; else ignored."
        if self.owner() == Some(m) && !self.masters[m].has(BUS_CONNECT) {
            let (sda, scl) = (value & 0x80 != 0, value & 0x40 != 0);
            changes.push(Change::Drives(Levels { scl, sda }));
        }
        changes
    }

    fn make(&mut self, change: Change) {
        match change {
            Change::Contr { master, value } => self.masters[master].contr = value,
            Change::EndGrant => self.end_grant(),
            Change::Drives(drives) => self.drives = drives,
            Change::Rt { master, value } => self.masters[master].rt = value,
            Change::IntMsk { master, value } => self.masters[master].int_msk = value,
            Change::ClearInterrupts { master, bits } => self.masters[master].int_status &= !bits,
            Change::RaiseInterrupts { master, bits } => self.masters[master].int_status |= bits,
            Change::MailLow { to, value } => self.masters[to].mail_low = value,
            Change::MailHigh { to, value } => {
                self.masters[to].mail_high = value;
                self.masters[to].mail_full = true;
            }
        }
    }

    /// The end of a grant, by a byte or by a loss. "BUS_CONNECT is cleared
    /// whenever a grant ends", and the drives are released.
    pub fn end_grant(&mut self) {
        if let Some(grant) = self.grant.take() {
            self.masters[grant.owner].contr &= !BUS_CONNECT;
            self.drives = BOTH_HIGH;
        }
    }

    /// "Acknowledged or not, with auto-increment the pointer then rises." What follows 7 goes by the
    /// kind of part (#105).
    fn raise_pointer_after_write(&mut self, m: usize) {
        let own = &mut self.masters[m];
        if own.auto_increment {
            own.pointer = self.kind.pointer_after_write(own.pointer);
        }
    }

    /// READ: hands out the byte at the pointer, and does what that READ does.
    pub fn read_byte(&mut self, m: usize) -> u8 {
        let byte = self.register(m, self.masters[m].pointer);
        // "Reading 7 of one's own full box empties it and sets the sender's
        // bit 4; the bytes remain readable."
        if self.masters[m].pointer == 7 && self.masters[m].mail_full {
            self.masters[m].mail_full = false;
            self.masters[1 - m].int_status |= INT_MAIL_EMPTIED;
        }
        let own = &mut self.masters[m];
        // "Port then open, but not for writing."
        own.port = Port::Open;
        // "With auto-increment the pointer then rises, and goes 7 to 0."
        if own.auto_increment {
            own.pointer = if own.pointer == 7 { 0 } else { own.pointer + 1 };
        }
        byte
    }

    /// COMMAND: opens the port. Gives the outcome.
    pub fn command(&mut self, m: usize, code: u8) -> u8 {
        let own = &mut self.masters[m];
        // "Bits 6..3 not 0: not acknowledged, both kept, port open but not for writing."
        if code & 0x78 != 0 {
            own.port = Port::Open;
            return 1;
        }
        own.port = Port::OpenForWriting;
        own.auto_increment = code & 0x80 != 0;
        own.pointer = code & 0x07;
        0
    }
}
