//! What there is without the features `std` and `alloc`: every call on lent buffers, the standing devices, sheets, totals and straps.
//! `tools/lint` has this file compiled so too; the calls that need `alloc` are not named in it.

use gunwaleish::{
    address_of, convert_trace_into, import_capture_into, library_version, list_orders_into,
    listing_into, pins_of, run_trace, sheet_box, sheet_events, sheet_wait, write_trace_into,
    Device, Event, Master, Outcome, Part, Pins, Refusal, Section, Sheet, Shelf, Totals, Wait,
    VERSION,
};

const MASTER: Master = Master::Zero;

/// Master 0 asks for the bus, and a TICK passes.
fn asks() -> [u8; 16] {
    let mut bytes = [0; 16];
    let events = [
        Event::Command { master: MASTER, code: 1 },
        Event::Write { master: MASTER, value: 5 },
        Event::Stop { master: MASTER },
        Event::Tick,
    ];
    for (four, event) in bytes.chunks_exact_mut(4).zip(events) {
        four.copy_from_slice(&event.bytes());
    }
    bytes
}

#[test]
fn the_crate_is_of_the_library_s_version() {
    assert_eq!(library_version(), VERSION);
    assert_eq!(VERSION.to_string(), env!("CARGO_PKG_VERSION"));
}

#[test]
fn traces_are_written_run_listed_and_counted_in_lent_buffers() {
    let (mut trace, mut answers, mut text) = ([0; 25], [0; 16], [0; 64]);
    let pins = Pins::of_address(0x70).unwrap();
    assert_eq!(write_trace_into(pins, Part::Tpt29641, &asks(), &mut trace), Ok(25));
    let report = run_trace(&trace, &mut answers).unwrap();
    assert_eq!((report.address, report.events, report.part), (0x70, 4, Part::Tpt29641));
    assert_eq!(answers[8..12], [0, 0, 0x25, 0x0C]);
    let length = listing_into(&trace, &mut text);
    assert_eq!(&text[..length], b"70 0004\n0000000C\n0000200C\n0000250C\n0000250C\n");
    let mut totals = Totals::new();
    assert_eq!(totals.add(&trace), Ok(()));
    assert_eq!((totals.ticks(), totals.owned(MASTER)), (1, 1));
    let mut again = [0; 25];
    assert_eq!(convert_trace_into(&trace[..23], &mut again), Ok(25));
    assert_eq!(again[23..], [1, 0]);
    assert_eq!(run_trace(&trace, &mut answers[..15]), Err(Refusal::TooLittleRoom));
}

#[test]
fn sheets_captures_and_orders_need_no_allocator() {
    let board = [2, 1, 50, 1, 20, 2, 1, 0, 1, 1, 2, 1, 0, 1, 1];
    let found = sheet_box(&board, &board, Section::Reserve, MASTER).unwrap();
    assert_eq!((found.sheet, found.value), (Sheet::Board, 50));
    assert_eq!(
        sheet_events(&board, &board).unwrap()[1],
        Event::Write { master: MASTER, value: 50 }
    );
    let wait = sheet_wait(&board, &board, Master::One, Part::Pca9641);
    assert_eq!(wait, Ok(Wait::Live { ticks: 51 }));
    assert_eq!(import_capture_into(&[0x0F; 9], 0x70, &mut []), Ok(0));
    let mut listed = [0; 4];
    assert_eq!(list_orders_into(&asks()[..12], &asks()[12..], usize::MAX, &mut listed), Ok(4));
    assert_eq!(listed, [0x25; 4]);
    assert_eq!((address_of([1, 1, 1, 3]), pins_of(0x0F)), (Ok(0x0F), Ok([1, 1, 1, 3])));
}

#[test]
fn devices_and_shelves_stand_without_an_allocator() {
    let mut device = Device::fresh(Part::Pca9641);
    let mut shelf = Shelf::new(&[(0x70, Part::Pca9641), (0x71, Part::Pca9641)]).unwrap();
    for four in asks().chunks_exact(4) {
        let event: [u8; 4] = four.try_into().unwrap();
        assert_eq!(device.step(event).outcome, Outcome::Done);
        assert_eq!(shelf.step(0x71, event).unwrap().outcome, Outcome::Done);
    }
    assert_eq!(shelf.device(1).as_ref(), Some(&device));
    assert_eq!(shelf.device(0), Some(fresh_after_a_tick()));
    assert_eq!((shelf.places(), shelf.address(1), shelf.row().len()), (2, Some(0x71), 78));
    assert_eq!(Shelf::from_row(shelf.row()).as_ref(), Ok(&shelf));
    assert_eq!(device.advance(60_000), Ok(0));
}

fn fresh_after_a_tick() -> Device {
    let mut device = Device::fresh(Part::Pca9641);
    device.step(Event::Tick);
    device
}

#[test]
fn the_longest_shelf_and_one_that_is_too_long() {
    let slots: Vec<(u8, Part)> = (0..40).map(|place| (place, Part::Pca9641)).collect();
    let longest = Shelf::new(&slots[..16]).unwrap();
    assert_eq!((longest.places(), longest.address(15)), (16, Some(15)));
    assert_eq!(Shelf::from_row(longest.row()), Ok(longest.clone()));
    assert_eq!(format!("{:?}", Shelf::new(&[]).unwrap_err()), "EmptyRow");
    for count in [17, 18, 40] {
        assert_eq!(Shelf::new(&slots[..count]), Err(Refusal::LongRow));
    }
    let mut row = longest.row().to_vec();
    row.extend_from_slice(&longest.row()[..39]);
    assert_eq!(Shelf::from_row(&row), Err(Refusal::LongRow));
    assert!(format!("{longest:?}").starts_with("Shelf { row: [0, "));
}
