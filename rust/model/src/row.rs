//! The row of a shelf as bytes in one lent buffer: records of 39 bytes, each an address and then the
//! image of its device. Document 02, #110 and #108.

use crate::device::Device;
use crate::image::{image_of, read_image, IMAGE_LENGTH, OTHER_LENGTH};
use crate::part::Kind;
use crate::shelf::*;

/// The address, then the image.
pub const RECORD_LENGTH: usize = 1 + IMAGE_LENGTH;

/// The bytes of a row.
pub fn row_of(shelf: &Shelf) -> Vec<u8> {
    let mut row = vec![];
    for record in &shelf.row {
        row.push(record.address);
        row.extend(image_of(&record.device));
    }
    row
}

/// The shelf of a row. The error is the number of the refusal: 9 where the bytes are no whole
/// records, then 16 where a field of any image is outside its range. An empty buffer is an empty
/// row.
pub fn read_row(row: &[u8]) -> Result<Shelf, u8> {
    if !row.len().is_multiple_of(RECORD_LENGTH) {
        return Err(OTHER_LENGTH);
    }
    let mut shelf = Shelf::default();
    for record in row.chunks(RECORD_LENGTH) {
        let device = read_image(&record[1..])?;
        shelf.row.push(Record { address: record[0], device });
    }
    Ok(shelf)
}

/// One event with its name, on the row. 9 and 16 come before the shelf's own refusals; all of them
/// leave the row as it was.
pub fn shelf_step(name: u8, event: [u8; 4], row: &mut [u8]) -> [u8; 4] {
    let mut shelf = match read_row(row) {
        Ok(shelf) => shelf,
        Err(number) => return [number, 0, 0, 0],
    };
    let answer = shelf.step(name, event);
    row.copy_from_slice(&row_of(&shelf));
    answer
}

/// The device at a place, as an answer shows it.
pub fn shelf_show(place: u8, row: &[u8]) -> [u8; 4] {
    match read_row(row) {
        Ok(shelf) => shelf.show(place),
        Err(number) => [number, 0, 0, 0],
    }
}

/// Writes a row of fresh devices, one for each slot: a pair of address and kind. Gives the number:
/// 9 for slots that are no pairs or a row that is not as long as they need, then the shelf's 5, 6
/// and 17, then 3 for another kind. What stood in the row is not looked at.
pub fn shelf_fresh(slots: &[u8], row: &mut [u8]) -> u8 {
    let pairs: Vec<(u8, u8)> = slots.chunks_exact(2).map(|slot| (slot[0], slot[1])).collect();
    if !slots.len().is_multiple_of(2) || row.len() != RECORD_LENGTH * pairs.len() {
        return OTHER_LENGTH;
    }
    if pairs.is_empty() {
        return EMPTY_ROW;
    }
    if pairs.len() > MOST_DEVICES {
        return ROW_TOO_LONG;
    }
    if has_twice(pairs.iter().map(|(address, _)| *address)) {
        return EQUAL_ADDRESSES;
    }
    let mut shelf = Shelf::default();
    for (address, kind) in pairs {
        let Some(kind) = Kind::of(kind) else {
            return 3;
        };
        shelf.row.push(Record { address, device: Device::power_up_of(kind) });
    }
    row.copy_from_slice(&row_of(&shelf));
    0
}
