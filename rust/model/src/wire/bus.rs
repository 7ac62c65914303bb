//! The lines in a sample, what is known of a capture, and what is told of one.

use crate::device::Device;
use crate::part::Kind;

/// The downstream lines in a sample, and all three of them high.
pub const DOWN_SCL: u8 = 0x10;
pub const DOWN_SDA: u8 = 0x20;
pub const INT_IN: u8 = 0x40;
pub const LINES: u8 = DOWN_SCL | DOWN_SDA | INT_IN;

/// What is known of a capture beside its samples.
#[derive(Clone, Copy, Debug, PartialEq, Eq)]
pub struct Setting {
    pub address: u8,
    /// The part that is said to be fitted.
    pub kind: Kind,
    /// The samples of one millisecond, at least 1.
    pub samples_per_tick: u64,
}

/// A condition of the I2C bus, or a whole byte at its ninth clock.
#[derive(Clone, Copy, Debug, PartialEq, Eq)]
pub enum Sign {
    Start,
    Byte(u8),
    Stop,
}

/// A START or STOP inside a byte. #104 refuses a capture for it with 12; a listener counts it.
#[derive(Clone, Copy, Debug, PartialEq, Eq)]
pub struct Fault {
    pub sample: u64,
    pub bus: usize,
}

/// A READ: the byte on the bus, and the byte of a right device at the ninth clock, where the event
/// stands.
#[derive(Clone, Copy, Debug, PartialEq, Eq)]
pub struct ReadByte {
    pub sample: u64,
    pub master: usize,
    pub heard: u8,
    pub expected: u8,
    /// Another event came after the chip had begun to show its byte: what was heard is not what is
    /// expected, but a right device would have answered it in between.
    pub overtaken: bool,
}

impl ReadByte {
    /// No right device answers so.
    pub fn is_wrong(&self) -> bool {
        self.heard != self.expected && !self.overtaken
    }
}

/// What a right device answers to a READ of this master, without what the READ does.
pub fn answer_of(device: &Device, master: usize) -> u8 {
    device.register(master, device.masters[master].pointer)
}
