//! A shelf with several arbiters. Document 02, #110: "a lent row of up to 16 device records, each
//! with its address".

use crate::device::Device;

/// "The next chassis has up to 16."
pub const MOST_DEVICES: usize = 16;

/// The shelf's own refusals, in their order. They "answer number, 00, 00, 00 and change no record".
pub const EMPTY_ROW: u8 = 5;
pub const ROW_TOO_LONG: u8 = 6;
pub const EQUAL_ADDRESSES: u8 = 17;
pub const NOT_IN_THE_ROW: u8 = 18;

/// A device and the address that it has on both upstream buses. "Addresses are names": any byte is
/// one.
#[derive(Clone, Debug, PartialEq, Eq)]
pub struct Record {
    pub address: u8,
    pub device: Device,
}

/// The row. "Places from 0."
#[derive(Clone, Debug, Default, PartialEq, Eq)]
pub struct Shelf {
    pub row: Vec<Record>,
}

/// What the name beside an event means.
#[derive(Clone, Copy, Debug, PartialEq, Eq)]
pub enum Naming {
    /// "Port events name an address; PAIR names one address for both masters."
    Address,
    /// "LINES and PULSE name a place in the row."
    Place,
    /// "TICK, RESET and GENERAL CALL reach all." The name is "not looked at".
    All,
    /// "An unknown kind names nothing", and reaches nobody.
    Nothing,
}

/// What an event of this kind names. Its fields have no part in it: "18 before 2, 3, 4 where
/// something is named".
pub fn naming_of(kind: u8) -> Naming {
    match kind {
        0..=4 => Naming::Address, // COMMAND, WRITE, READ, STOP, PAIR
        5 | 7 => Naming::Place,   // LINES, PULSE
        6 | 8 | 9 => Naming::All, // TICK, RESET, GENERAL CALL
        _ => Naming::Nothing,
    }
}

impl Shelf {
    /// 5, 6 and 17 are "for every event".
    pub fn refusal(&self) -> Option<u8> {
        if self.row.is_empty() {
            return Some(EMPTY_ROW);
        }
        if self.row.len() > MOST_DEVICES {
            return Some(ROW_TOO_LONG);
        }
        has_twice(self.row.iter().map(|record| record.address)).then_some(EQUAL_ADDRESSES)
    }

    /// The place that the event is for and answered from, or nobody's. "An event that reaches all,
    /// or of unknown kind, answers for place 0."
    pub fn place_named(&self, name: u8, kind: u8) -> Option<usize> {
        match naming_of(kind) {
            Naming::Address => self.row.iter().position(|record| record.address == name),
            Naming::Place => self.place(name),
            Naming::All | Naming::Nothing => Some(0),
        }
    }

    fn place(&self, number: u8) -> Option<usize> {
        Some(usize::from(number)).filter(|place| *place < self.row.len())
    }

    /// Takes one event with its name and gives its answer.
    pub fn step(&mut self, name: u8, event: [u8; 4]) -> [u8; 4] {
        if let Some(number) = self.refusal() {
            return [number, 0, 0, 0];
        }
        let Some(place) = self.place_named(name, event[0]) else {
            return [NOT_IN_THE_ROW, 0, 0, 0];
        };
        if naming_of(event[0]) == Naming::All {
            // Each device takes the same four bytes, so the hold that follows a soft reset "goes by
            // each device's own SMBUS_SWRST".
            let others = self.row.iter_mut().skip(1);
            others.for_each(|record| {
                record.device.step(event);
            });
        }
        self.row[place].device.step(event)
    }

    /// "Each device then being readable by its place": done, no byte read, and what an answer shows
    /// of the device there. No record changes.
    pub fn show(&self, place: u8) -> [u8; 4] {
        if let Some(number) = self.refusal() {
            return [number, 0, 0, 0];
        }
        match self.place(place) {
            None => [NOT_IN_THE_ROW, 0, 0, 0],
            Some(place) => self.row[place].device.answer(0, 0),
        }
    }
}

/// Some byte comes twice.
pub fn has_twice(bytes: impl Iterator<Item = u8>) -> bool {
    let mut seen = [false; 256];
    bytes.into_iter().any(|byte| std::mem::replace(&mut seen[usize::from(byte)], true))
}
