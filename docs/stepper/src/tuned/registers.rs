//! The tuned device: its state, and what a byte written or read does.

use crate::reading::Kind;

/// Bits of CONTR. LOCK_GRANT is computed.
pub const PRIORITY: u8 = 0x80;
pub const SMBUS_DIS: u8 = 0x40;
pub const IDLE_TIMER_DIS: u8 = 0x20;
pub const SMBUS_SWRST: u8 = 0x10;
pub const BUS_INIT: u8 = 0x08;
pub const BUS_CONNECT: u8 = 0x04;
pub const LOCK_GRANT: u8 = 0x02;
pub const LOCK_REQ: u8 = 0x01;

/// The two lines, as bits in the place where the answer has them.
pub const SCL: u8 = 0x04;
pub const SDA: u8 = 0x08;
pub const BOTH: u8 = SCL | SDA;

/// The low counts that show a hung bus, and at which they stop.
pub const SCL_HUNG: u16 = 500;
pub const SDA_HUNG: u16 = 501;

#[derive(Clone, Copy, PartialEq, Eq)]
pub enum Master {
    Zero,
    One,
}

impl Master {
    pub fn partner(self) -> Master {
        match self {
            Master::Zero => Master::One,
            Master::One => Master::Zero,
        }
    }
}

#[derive(Clone, Copy, PartialEq, Eq)]
pub enum Port {
    AtRest,
    Open,
    OpenForWriting,
}

/// Why a claim was won, by the numbers that the answer has.
#[derive(Clone, Copy, PartialEq, Eq)]
pub enum Ground {
    Sole = 1,
    Priority = 2,
    LastGranted = 3,
}

#[derive(Clone, Copy, PartialEq, Eq)]
pub enum Turn {
    Nobody,
    Claims(Master, Ground),
    Owns(Master, Ground),
}

/// Whose switch it is. Initialising counts the PULSE of 0 so far.
#[derive(Clone, Copy, PartialEq, Eq)]
pub enum Switch {
    Open,
    Initialising(Master, u8),
    Closed(Master),
}

#[derive(Clone, Copy)]
pub struct Side {
    pub contr: u8,
    pub rt: u8,
    pub int_status: u8,
    pub int_msk: u8,
    pub mail_low: u8,
    pub mail_high: u8,
    pub mail_full: bool,
    pub port: Port,
    pub pointer: u8,
    pub auto_increment: bool,
}

pub struct Device {
    pub kind: Kind,
    pub sides: [Side; 2],
    pub outside: u8,
    pub int_in: bool,
    pub drives: u8,
    pub hold: u8,
    pub busy: bool,
    pub scl_low: u16,
    pub sda_low: u16,
    pub idle: u8,
    pub turn: Turn,
    pub reserve_left: u8,
    pub last_granted: Option<Master>,
    pub switch: Switch,
    pub init_fail: bool,
}

const FRESH_SIDE: Side = Side {
    contr: 0,
    rt: 0,
    int_status: 0,
    int_msk: 0x7F,
    mail_low: 0,
    mail_high: 0,
    mail_full: false,
    port: Port::AtRest,
    pointer: 0,
    auto_increment: false,
};

impl Device {
    pub fn fresh(kind: Kind) -> Device {
        Device {
            kind,
            sides: [FRESH_SIDE; 2],
            outside: BOTH,
            int_in: true,
            drives: BOTH,
            hold: 0,
            busy: false,
            scl_low: 0,
            sda_low: 0,
            idle: 0,
            turn: Turn::Nobody,
            reserve_left: 0,
            last_granted: None,
            switch: Switch::Open,
            init_fail: false,
        }
    }

    pub fn side(&mut self, m: Master) -> &mut Side {
        &mut self.sides[m as usize]
    }

    pub fn owns(&self, m: Master) -> bool {
        matches!(self.turn, Turn::Owns(owner, _) if owner == m)
    }

    pub fn levels(&self) -> u8 {
        let free = self.outside & self.drives;
        if self.hold == 0 {
            free
        } else {
            free & !SCL
        }
    }

    pub fn is_hung(&self) -> bool {
        self.scl_low == SCL_HUNG || self.sda_low == SDA_HUNG
    }

    /// The end of a grant, by a byte or by a loss.
    pub fn end_grant(&mut self, m: Master) {
        self.side(m).contr &= !BUS_CONNECT;
        self.drives = BOTH;
        self.turn = Turn::Nobody;
    }

    /// A byte written at the pointer. False is a byte that is not acknowledged.
    pub fn write_byte(&mut self, m: Master, value: u8) -> bool {
        let pointer = self.side(m).pointer;
        match pointer {
            0 => {}
            1 => self.write_contr(m, value),
            2 => self.write_status(m, value),
            3 if self.owns(m) => {}
            3 => self.side(m).rt = value,
            4 => self.side(m).int_status &= !value,
            5 => self.side(m).int_msk = value & 0x7F,
            _ => self.write_mail(m, pointer, value),
        }
        let past_7 = self.kind.past_7();
        let side = self.side(m);
        if side.auto_increment {
            side.pointer = if pointer == 7 { past_7 } else { pointer + 1 };
        }
        pointer != 0
    }

    fn write_contr(&mut self, m: Master, value: u8) {
        self.side(m).contr = value & !LOCK_GRANT;
        if self.owns(m) {
            if value & BUS_CONNECT != 0 {
                self.drives = BOTH;
            }
            if value & LOCK_REQ == 0 {
                self.end_grant(m);
            }
        }
    }

    fn write_status(&mut self, m: Master, value: u8) {
        if value & 0x20 != 0 {
            self.side(m).int_status |= 0x08;
        }
        if self.owns(m) && self.side(m).contr & BUS_CONNECT == 0 {
            self.drives = (value >> 4) & BOTH;
        }
    }

    fn write_mail(&mut self, m: Master, pointer: u8, value: u8) {
        let partner = self.side(m.partner());
        if partner.mail_full {
            return;
        }
        if pointer == 6 {
            partner.mail_low = value;
        } else {
            partner.mail_high = value;
            partner.mail_full = true;
            partner.int_status |= 0x20;
        }
    }

    /// A READ: the byte at the pointer, and what reading it does.
    pub fn read_byte(&mut self, m: Master) -> u8 {
        let own = self.sides[m as usize];
        let byte = match own.pointer {
            0 => 0x38,
            1 => own.contr | if self.owns(m) { LOCK_GRANT } else { 0 },
            2 => self.status(m),
            3 => own.rt,
            4 => own.int_status | (self.is_hung() as u8) << 6,
            5 => own.int_msk,
            6 => own.mail_low,
            _ => own.mail_high,
        };
        let side = self.side(m);
        side.port = Port::Open;
        if own.auto_increment {
            side.pointer = (own.pointer + 1) & 7;
        }
        if own.pointer == 7 && own.mail_full {
            side.mail_full = false;
            self.side(m.partner()).int_status |= 0x10;
        }
        byte
    }

    fn status(&self, m: Master) -> u8 {
        let partner = m.partner();
        self.levels() << 4
            | (self.sides[m as usize].mail_full as u8) << 4
            | (!self.sides[partner as usize].mail_full as u8) << 3
            | (self.is_hung() as u8) << 2
            | (self.init_fail as u8) << 1
            | self.owns(partner) as u8
    }
}
