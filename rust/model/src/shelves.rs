//! Seeded random shelves and runs on them, good and damaged (document 02, #110). The random cases say
//! nothing about what is right.

use std::collections::VecDeque;

use crate::image::{Range, Row, IMAGE_LENGTH, ROWS};
use crate::images::{any_event, any_image, put};
use crate::part::BOTH_KINDS;
use crate::read_image;
use crate::rng::Rng;
use crate::row::{row_of, RECORD_LENGTH};
use crate::shelf::*;
use crate::traces::event_list_of;
use crate::Device;

/// An event and the name beside it.
pub type Named = (u8, [u8; 4]);

/// How many records a row has: few most often, sometimes none, about 16, or too many.
pub fn any_count(rng: &mut Rng) -> usize {
    let any = rng.below(19) as usize;
    rng.pick(&[0, 1, 2, 2, 3, 3, 4, 5, 15, 16, 16, 17, any, any])
}

/// So many addresses, no two of them equal. Some are numbers of places too, some are no address of
/// the part.
pub fn addresses(rng: &mut Rng, count: usize) -> Vec<u8> {
    let mut all: Vec<u8> = vec![];
    while all.len() < count {
        let (usual, low, any) = (rng.between(0x08, 0x77) as u8, rng.below(20) as u8, rng.byte());
        let address = rng.pick(&[usual, usual, low, any]);
        if !all.contains(&address) {
            all.push(address);
        }
    }
    all
}

/// A row of fresh devices of either kind.
pub fn fresh_shelf(rng: &mut Rng, count: usize) -> Shelf {
    let mut shelf = Shelf::default();
    for address in addresses(rng, count) {
        let device = Device::power_up_of(rng.pick(&BOTH_KINDS));
        shelf.row.push(Record { address, device });
    }
    shelf
}

/// A row of devices with every field somewhere in its range.
pub fn any_shelf(rng: &mut Rng, count: usize) -> Shelf {
    let mut shelf = fresh_shelf(rng, count);
    for record in &mut shelf.row {
        record.device = read_image(&any_image(rng)).expect("every field is in its range");
    }
    shelf
}

/// Events with their names for a row of fresh devices: each device is told a list of its own, and the
/// lists are dealt out at random.
pub fn named_events(rng: &mut Rng, shelf: &Shelf, length: usize) -> Vec<Named> {
    let count = shelf.row.len() as u64;
    let list = |record: &Record| -> VecDeque<[u8; 4]> {
        event_list_of(record.device.kind, rng.below(1 << 31), length).into()
    };
    let mut lists: Vec<_> = shelf.row.iter().map(list).collect();
    let mut events = vec![];
    while events.len() < length {
        let place = rng.below(count) as usize;
        let event = lists[place].pop_front().unwrap_or(any_event(rng));
        // A reset reaches all, and ends what every device was told. So there are no more of them
        // than one device would have.
        if matches!(event[0], 8 | 9) && rng.below(count) > 0 {
            continue;
        }
        events.push((name_for(rng, shelf, place, event[0]), event));
    }
    events
}

/// The name of the device at this place, as the kind of event asks for it. Few names are wrong, and
/// any name goes where none is asked for.
pub fn name_for(rng: &mut Rng, shelf: &Shelf, place: usize, kind: u8) -> u8 {
    let (any, count) = (rng.byte(), shelf.row.len() as u8);
    let address = shelf.row.get(place).map_or(any, |record| record.address);
    match naming_of(kind) {
        _ if rng.percent(4) => rng.pick(&[any, any % 20, address, place as u8, count]),
        Naming::Address => address,
        Naming::Place => place as u8,
        Naming::All | Naming::Nothing => any,
    }
}

/// Any event for any device of the row.
pub fn any_named(rng: &mut Rng, shelf: &Shelf) -> Named {
    let event = any_event(rng);
    let place = rng.below(shelf.row.len().max(1) as u64) as usize;
    (name_for(rng, shelf, place, event[0]), event)
}

/// The bytes of a row with one thing wrong or more: equal addresses, an image out of range, bytes
/// that are missing or too many.
pub fn damaged_row(rng: &mut Rng, shelf: &Shelf) -> Vec<u8> {
    let mut row = row_of(shelf);
    let count = shelf.row.len();
    let wrong = rng.between(1, 7);
    if wrong & 1 != 0 && count > 1 {
        let from = rng.below(count as u64) as usize;
        let to = (from + rng.between(1, count as u64 - 1) as usize) % count;
        row[to * RECORD_LENGTH] = row[from * RECORD_LENGTH];
    }
    if wrong & 2 != 0 && count > 0 {
        let any = rng.below(count as u64) as usize;
        let record = rng.pick(&[0, any, any, count - 1]);
        put_out_of_range(rng, &mut row[record * RECORD_LENGTH + 1..][..IMAGE_LENGTH]);
    }
    if wrong & 4 != 0 {
        let missing = rng.pick(&[0, 0, 1, 2, 38]).min(row.len());
        row.truncate(row.len() - missing);
        let more = if missing == 0 { rng.pick(&[1, 1, 2, 38]) } else { 0 };
        row.extend((0..more).map(|_| rng.byte()));
    }
    row
}

/// Puts one field of an image outside its range.
fn put_out_of_range(rng: &mut Rng, image: &mut [u8]) {
    let bounded: Vec<Row> = ROWS.into_iter().filter(|row| row.range != Range::UpTo(255)).collect();
    let row = rng.pick(&bounded);
    let number = match row.range {
        Range::UpTo(most) => most + 1,
        Range::Without(bits) => i64::from(rng.byte() | bits),
        Range::IdleCount => 152,
    };
    put(image, &row, number);
}

/// Slots for a fresh row, a pair of address and kind each.
pub fn any_slots(rng: &mut Rng, count: usize) -> Vec<u8> {
    let mut slots = vec![];
    for address in addresses(rng, count) {
        slots.extend([address, rng.below(2) as u8]);
    }
    slots
}

/// Slots with one thing wrong or more: equal addresses, another kind, a byte too many.
pub fn damaged_slots(rng: &mut Rng, count: usize) -> Vec<u8> {
    let mut slots = any_slots(rng, count);
    let wrong = rng.between(1, 7);
    if wrong & 1 != 0 && count > 1 {
        slots[2 * (count - 1)] = slots[2 * rng.below(count as u64 - 1) as usize];
    }
    if wrong & 2 != 0 && count > 0 {
        slots[2 * rng.below(count as u64) as usize + 1] = rng.between(2, 255) as u8;
    }
    if wrong == 4 {
        slots.push(rng.byte());
    }
    slots
}
