//! What the image of a device holds beside its registers, by the offsets of `docs/IMAGE.md`. A test holds them to
//! that page.

use gunwaleish::{Device, Master};

/// A field of the image.
#[derive(Clone, Copy, Debug, PartialEq, Eq)]
pub struct Field {
    pub name: &'static str,
    pub offset: usize,
    pub bytes: usize,
}

const fn byte(name: &'static str, offset: usize) -> Field {
    Field { name, offset, bytes: 1 }
}

pub const RESERVE: Field = byte("reserve count", 14);
pub const HOLD: Field = byte("hold", 15);
pub const LOW_SCL: Field = Field { name: "low count of SCL", offset: 16, bytes: 2 };
pub const LOW_SDA: Field = Field { name: "low count of SDA", offset: 18, bytes: 2 };
pub const IDLE: Field = byte("idle count", 20);
pub const OUTSIDE_SCL: Field = byte("outside SCL", 21);
pub const OUTSIDE_SDA: Field = byte("outside SDA", 22);
pub const INT_IN: Field = byte("INT_IN", 23);
pub const DRIVE_SCL: Field = byte("drive of SCL", 24);
pub const DRIVE_SDA: Field = byte("drive of SDA", 25);
pub const BUSY: Field = byte("busy", 26);
pub const LAST: Field = byte("last granted", 28);
pub const SWITCH: Field = byte("switch with its PULSEs", 29);
pub const INIT_FAIL: Field = byte("BUS_INIT_FAIL", 30);
/// Of each master.
pub const MAIL_FULL: [Field; 2] =
    [byte("mailbox of master 0 full", 6), byte("mailbox of master 1 full", 13)];
pub const PORT: [Field; 2] = [byte("port of master 0", 32), byte("port of master 1", 35)];
pub const POINTER: [Field; 2] = [byte("pointer of master 0", 33), byte("pointer of master 1", 36)];
pub const AUTO: [Field; 2] =
    [byte("auto-increment of master 0", 34), byte("auto-increment of master 1", 37)];

/// Every field that is looked at here.
pub const ALL: [Field; 22] = [
    RESERVE,
    HOLD,
    LOW_SCL,
    LOW_SDA,
    IDLE,
    OUTSIDE_SCL,
    OUTSIDE_SDA,
    INT_IN,
    DRIVE_SCL,
    DRIVE_SDA,
    BUSY,
    LAST,
    SWITCH,
    INIT_FAIL,
    MAIL_FULL[0],
    MAIL_FULL[1],
    PORT[0],
    PORT[1],
    POINTER[0],
    POINTER[1],
    AUTO[0],
    AUTO[1],
];

impl Field {
    /// Its value, low byte first.
    pub fn of(self, device: &Device) -> u16 {
        let bytes = &device.image()[self.offset..self.offset + self.bytes];
        bytes.iter().rev().fold(0, |value, &byte| value << 8 | u16::from(byte))
    }

    pub fn is_set(self, device: &Device) -> bool {
        self.of(device) != 0
    }
}

/// The master that was granted last.
pub fn last_granted(device: &Device) -> Option<Master> {
    match LAST.of(device) {
        1 => Some(Master::Zero),
        2 => Some(Master::One),
        _ => None,
    }
}

/// How many PULSEs of 0 a running initialisation has had.
pub fn pulses(device: &Device) -> Option<u16> {
    let code = SWITCH.of(device).checked_sub(3)?;
    Some(code % 9)
}
