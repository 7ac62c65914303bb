//! A shelf with several arbiters: a row of standing devices, each with its address. Document 02, #110.

use core::fmt;

use crate::{boundary, Answer, Device, Part, Refusal, IMAGE_LENGTH};

/// The bytes of a record: its address, and the image of its device.
pub const RECORD_LENGTH: usize = 1 + IMAGE_LENGTH;

/// The most records of a shelf.
pub const MOST_RECORDS: usize = 16;

/// The bytes of the longest row.
const MOST_ROW: usize = MOST_RECORDS * RECORD_LENGTH;

/// Up to 16 devices on the same two upstream buses, each with its address. A shelf is the bytes of its
/// row and nothing else, so it can be kept and taken up again.
///
/// An event goes to a name. For COMMAND, WRITE, READ, STOP and PAIR that is an address; for LINES and
/// PULSE it is a place, from 0 on; TICK, RESET and GENERAL CALL reach every device, and the name is not
/// looked at.
///
/// Every row in it is one that the library takes: `new` and `from_row` see to it, and the library is
/// proved to keep it so. So no event on a `Shelf` is refused but with 18, for a name that is not there.
///
/// ```
/// use gunwaleish::{Event, Master, Part, Refusal, Register, Shelf};
///
/// // Master 0 asks for the bus of the arbiter at 71h. The other one is left alone.
/// let master = Master::Zero;
/// let mut shelf = Shelf::new(&[(0x70, Part::Pca9641), (0x71, Part::Tpt29641)])?;
/// shelf.step(0x71, Event::Command { master, code: 1 })?;
/// shelf.step(0x71, Event::Write { master, value: 0x05 })?;
/// assert_eq!(shelf.step(0x71, Event::Stop { master })?.owner, Some(Master::Zero));
/// assert_eq!(shelf.show(0)?.owner, None);
///
/// // A TICK reaches both, and answers for place 0.
/// assert_eq!(shelf.step(0, Event::Tick)?.owner, None);
/// assert_eq!(shelf.show(1)?.connected, Some(Master::Zero));
/// assert_eq!(shelf.device(1).unwrap().read(master, Register::Contr), 0x07);
///
/// // No arbiter has this address.
/// assert_eq!(shelf.step(0x72, Event::Stop { master }), Err(Refusal::NotInRow));
/// # Ok::<(), gunwaleish::Refusal>(())
/// ```
#[derive(Clone, PartialEq, Eq, Hash)]
pub struct Shelf {
    /// The row, and 0 after it: nothing is allocated.
    room: [u8; MOST_ROW],
    length: usize,
}

impl Shelf {
    /// A shelf after power-up, with an address and a kind of part for each place. Refusals, in this
    /// order: 5 for none, 6 for more than 16, 17 for two equal addresses. Any byte is an address.
    pub fn new(slots: &[(u8, Part)]) -> Result<Shelf, Refusal> {
        // One more than the most, so that the library tells of too many.
        const ROOM: usize = MOST_RECORDS + 1;
        let mut bytes = [0; 2 * ROOM];
        let mut row = [0; RECORD_LENGTH * ROOM];
        for (slot, &(address, part)) in bytes.chunks_exact_mut(2).zip(slots) {
            slot.copy_from_slice(&[address, part.number()]);
        }
        let count = slots.len().min(ROOM);
        let row = &mut row[..RECORD_LENGTH * count];
        let number = boundary::shelf_fresh(&bytes[..2 * count], row) as u8;
        Refusal::of_row(number).map_or_else(|| Shelf::of(row), Err)
    }

    /// The shelf of a row that was kept. Refusals, in this order: 9 if there are not 39 bytes for each
    /// record, 16 if a field of an image is outside its range, 5, 6 and 17 as for a new one.
    pub fn from_row(bytes: &[u8]) -> Result<Shelf, Refusal> {
        // Every row that is not refused has a place 0, so the library judges the row alone.
        let number = boundary::shelf_show(0, bytes) as u8;
        Refusal::of_row(number).map_or_else(|| Shelf::of(bytes), Err)
    }

    /// The shelf of a row that the library takes, which has 16 records at most.
    fn of(row: &[u8]) -> Result<Shelf, Refusal> {
        let mut room = [0; MOST_ROW];
        room.get_mut(..row.len()).ok_or(Refusal::LongRow)?.copy_from_slice(row);
        Ok(Shelf { room, length: row.len() })
    }

    /// Takes one event, an `Event` or four bytes, with the name that it goes to, and gives its answer:
    /// that of the device with this name, or of place 0 if it reaches all. Refused with 18 if nobody has
    /// the name. An event that the device refuses, with 2, 3 or 4, changes nothing, and its answer shows
    /// the device.
    pub fn step(&mut self, name: u8, event: impl Into<[u8; 4]>) -> Result<Answer, Refusal> {
        answered(boundary::shelf_step(name, event.into(), &mut self.room[..self.length]))
    }

    /// The device at a place as it stands, without an event: outcome 0 and no byte read.
    pub fn show(&self, place: u8) -> Result<Answer, Refusal> {
        answered(boundary::shelf_show(place, self.row()))
    }

    /// How many places it has.
    pub fn places(&self) -> usize {
        self.length / RECORD_LENGTH
    }

    /// The address at a place.
    pub fn address(&self, place: usize) -> Option<u8> {
        Some(self.row().chunks_exact(RECORD_LENGTH).nth(place)?[0])
    }

    /// The device at a place, by itself.
    pub fn device(&self, place: usize) -> Option<Device> {
        Device::from_image(&self.row().chunks_exact(RECORD_LENGTH).nth(place)?[1..]).ok()
    }

    /// Its row: 39 bytes for each place, the address and the image.
    pub fn row(&self) -> &[u8] {
        &self.room[..self.length]
    }
}

impl fmt::Debug for Shelf {
    fn fmt(&self, f: &mut fmt::Formatter) -> fmt::Result {
        f.debug_struct("Shelf").field("row", &self.row()).finish()
    }
}

/// The numbers up to 4 are outcomes of a device, and the others refuse the call.
fn answered(packed: u32) -> Result<Answer, Refusal> {
    let bytes = packed.to_le_bytes();
    match bytes[0] {
        0..=4 => Ok(bytes.into()),
        number => Err(Refusal::of_row(number).unwrap_or(Refusal::Unknown(number))),
    }
}
