//! The flat image of a device. Document 02, #108: "master 0's registers, master 1's, shared counts,
//! then ports"; the offsets, the numbers of enums and the ranges are those of docs/IMAGE.md.

use crate::device::*;
use crate::image_fields::{device_of, numbers_of};
use crate::part::Kind;

pub const IMAGE_LENGTH: usize = 38;

/// The numbers that a call on an image answers before 01's own: a buffer of another length, then a
/// field outside its range.
pub const OTHER_LENGTH: u8 = 9;
pub const OUT_OF_RANGE: u8 = 16;

/// The values that a run from power-up gives a field.
#[derive(Clone, Copy, Debug, PartialEq, Eq)]
pub enum Range {
    /// 0 to this.
    UpTo(i64),
    /// Any byte in which these bits are clear.
    Without(u8),
    /// 0 to the limit of the kind of part that the image itself has.
    IdleCount,
}

/// One row of the page's table.
#[derive(Clone, Copy, Debug, PartialEq, Eq)]
pub struct Row {
    pub offset: usize,
    pub bytes: usize,
    pub field: &'static str,
    pub range: Range,
}

const fn row(offset: usize, bytes: usize, field: &'static str, range: Range) -> Row {
    Row { offset, bytes, field, range }
}

const ANY: Range = Range::UpTo(255);
const FLAG: Range = Range::UpTo(1);

/// Where the kind of part stands, by which the idle count is judged.
pub const KIND_OFFSET: usize = 31;

/// The table, row by row.
pub const ROWS: [Row; 36] = [
    row(0, 1, "CONTR of master 0", Range::Without(LOCK_GRANT)),
    row(1, 1, "RT of master 0", ANY),
    row(2, 1, "INT_STATUS of master 0", Range::UpTo(0x3F)),
    row(3, 1, "INT_MSK of master 0", Range::UpTo(0x7F)),
    row(4, 1, "mailbox low of master 0", ANY),
    row(5, 1, "mailbox high of master 0", ANY),
    row(6, 1, "mailbox of master 0 full", FLAG),
    row(7, 1, "CONTR of master 1", Range::Without(LOCK_GRANT)),
    row(8, 1, "RT of master 1", ANY),
    row(9, 1, "INT_STATUS of master 1", Range::UpTo(0x3F)),
    row(10, 1, "INT_MSK of master 1", Range::UpTo(0x7F)),
    row(11, 1, "mailbox low of master 1", ANY),
    row(12, 1, "mailbox high of master 1", ANY),
    row(13, 1, "mailbox of master 1 full", FLAG),
    row(14, 1, "reserve count", ANY),
    row(15, 1, "hold", Range::UpTo(HOLD_TICKS)),
    row(16, 2, "low count of SCL", Range::UpTo(SCL_HUNG_TICKS)),
    row(18, 2, "low count of SDA", Range::UpTo(SDA_HUNG_TICKS)),
    row(20, 1, "idle count", Range::IdleCount),
    row(21, 1, "outside SCL", FLAG),
    row(22, 1, "outside SDA", FLAG),
    row(23, 1, "INT_IN", FLAG),
    row(24, 1, "drive of SCL", FLAG),
    row(25, 1, "drive of SDA", FLAG),
    row(26, 1, "busy", FLAG),
    row(27, 1, "turn with its ground", Range::UpTo(12)),
    row(28, 1, "last granted", Range::UpTo(2)),
    row(29, 1, "switch with its PULSEs", Range::UpTo(20)),
    row(30, 1, "BUS_INIT_FAIL", FLAG),
    row(KIND_OFFSET, 1, "kind of part", FLAG),
    row(32, 1, "port of master 0", Range::UpTo(2)),
    row(33, 1, "pointer of master 0", Range::UpTo(7)),
    row(34, 1, "auto-increment of master 0", FLAG),
    row(35, 1, "port of master 1", Range::UpTo(2)),
    row(36, 1, "pointer of master 1", Range::UpTo(7)),
    row(37, 1, "auto-increment of master 1", FLAG),
];

impl Row {
    /// The field's number in an image. "16-bit counts low-first."
    pub fn number(&self, image: &[u8]) -> i64 {
        let bytes = &image[self.offset..self.offset + self.bytes];
        bytes.iter().rev().fold(0, |number, &byte| 256 * number + i64::from(byte))
    }

    /// The field is in its range. The idle count's top goes "by the kind in the image"; where that is
    /// no kind, the image is refused for it anyway.
    pub fn fits(&self, image: &[u8]) -> bool {
        let number = self.number(image);
        match self.range {
            Range::UpTo(most) => number <= most,
            Range::Without(bits) => number & i64::from(bits) == 0,
            Range::IdleCount => {
                Kind::of(image[KIND_OFFSET]).is_none_or(|kind| number <= kind.idle_ticks())
            }
        }
    }
}

/// The image of a device.
pub fn image_of(device: &Device) -> [u8; IMAGE_LENGTH] {
    let mut image = [0; IMAGE_LENGTH];
    for (row, number) in ROWS.iter().zip(numbers_of(device)) {
        let bytes = &number.to_le_bytes()[..row.bytes];
        image[row.offset..row.offset + row.bytes].copy_from_slice(bytes);
    }
    image
}

/// The device of an image. The error is the number of the refusal: 9 "for any other length, longer
/// too; then 16".
pub fn read_image(image: &[u8]) -> Result<Device, u8> {
    if image.len() != IMAGE_LENGTH {
        return Err(OTHER_LENGTH);
    }
    if !ROWS.iter().all(|row| row.fits(image)) {
        return Err(OUT_OF_RANGE);
    }
    let numbers: Vec<i64> = ROWS.iter().map(|row| row.number(image)).collect();
    Ok(device_of(&numbers))
}

/// Writes the image of a fresh device of this kind. Gives the number: 9, then 3 for another kind.
pub fn image_fresh(kind: u8, image: &mut [u8]) -> u8 {
    if image.len() != IMAGE_LENGTH {
        return OTHER_LENGTH;
    }
    let Some(kind) = Kind::of(kind) else {
        return 3;
    };
    image.copy_from_slice(&image_of(&Device::power_up_of(kind)));
    0
}

/// "A step on the image gives the answer of a step on the record, and the new image is that of the
/// new record." 9 and 16 "come before 01's own and answer number, 00, 00, 00".
pub fn image_step(event: [u8; 4], image: &mut [u8]) -> [u8; 4] {
    let mut device = match read_image(image) {
        Ok(device) => device,
        Err(number) => return [number, 0, 0, 0],
    };
    let answer = device.step(event);
    image.copy_from_slice(&image_of(&device));
    answer
}

/// What the master reads of its register, without an event. The error is the number of the refusal:
/// 9, 16, then 3 for a master or a register that there is not.
pub fn image_read(master: u8, register: u8, image: &[u8]) -> Result<u8, u8> {
    let device = read_image(image)?;
    match (master, register) {
        (0..=1, 0..=7) => Ok(device.register(usize::from(master), register)),
        _ => Err(3),
    }
}
