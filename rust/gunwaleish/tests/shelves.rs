//! A shelf with several arbiters (document 02, #110), and its row as bytes.

use gunwaleish::{
    boundary, Device, Event, Master, Outcome, Part, Refusal, Shelf, MOST_RECORDS, RECORD_LENGTH,
};

const M0: Master = Master::Zero;
const SLOTS: [(u8, Part); 3] =
    [(0x70, Part::Pca9641), (0x11, Part::Tpt29641), (0x72, Part::Pca9641)];

/// One of each kind of event, some of them refused by the device: a shelf of one answers as its device.
const EVENTS: [[u8; 4]; 12] = [
    [0, 0, 1, 0],
    [1, 0, 0x05, 0],
    [3, 0, 0, 0],
    [6, 0, 0, 0],
    [0, 1, 0x81, 0],
    [2, 1, 0, 0],
    [5, 1, 0, 1],
    [7, 1, 0, 0],
    [4, 0x05, 0x05, 0],
    [9, 0, 0, 0],
    [8, 0, 0, 0],
    [10, 1, 2, 3],
];

fn three() -> Shelf {
    Shelf::new(&SLOTS).unwrap()
}

/// Asks for the bus of the device at this address.
fn ask(shelf: &mut Shelf, address: u8) {
    shelf.step(address, Event::Command { master: M0, code: 1 }).unwrap();
    shelf.step(address, Event::Write { master: M0, value: 0x05 }).unwrap();
    shelf.step(address, Event::Stop { master: M0 }).unwrap();
}

#[test]
fn a_fresh_shelf_has_fresh_devices() {
    let shelf = three();
    assert_eq!(shelf.places(), 3);
    for (place, &(address, part)) in SLOTS.iter().enumerate() {
        assert_eq!(shelf.address(place), Some(address));
        assert_eq!(shelf.device(place), Some(Device::fresh(part)));
    }
    assert_eq!((shelf.address(3), shelf.device(3)), (None, None));
    assert_eq!(Shelf::from_row(shelf.row()), Ok(shelf));
}

#[test]
fn an_event_for_one_leaves_the_others() {
    let mut shelf = three();
    ask(&mut shelf, 0x11);
    assert_eq!(shelf.show(1).unwrap().owner, Some(M0));
    for place in [0, 2] {
        assert_eq!(shelf.device(place), Some(Device::fresh(Part::Pca9641)));
    }
}

/// Stepped beside two others, each device is what it is alone.
#[test]
fn each_device_answers_as_it_does_alone() {
    let mut shelf = three();
    let mut alone = SLOTS.map(|(_, part)| Device::fresh(part));
    for (turn, event) in EVENTS.into_iter().cycle().take(200).enumerate() {
        let place = turn / 3 % 3;
        let name = if event[0] < 5 { SLOTS[place].0 } else { place as u8 };
        let answer = shelf.step(name, event).unwrap();
        if matches!(event[0], 6 | 8 | 9 | 10) {
            let answers = alone.each_mut().map(|device| device.step(event));
            assert_eq!(answer, answers[0]);
        } else {
            assert_eq!(answer, alone[place].step(event));
        }
        for (place, device) in alone.iter().enumerate() {
            assert_eq!(shelf.device(place).as_ref(), Some(device));
        }
    }
}

#[test]
fn ticks_and_resets_reach_all_and_answer_for_place_0() {
    let mut shelf = three();
    for (address, _) in SLOTS {
        ask(&mut shelf, address);
    }
    assert_eq!(shelf.step(0xEE, Event::Tick).unwrap().owner, Some(M0));
    for place in 0..3 {
        assert_eq!(shelf.show(place).unwrap().connected, Some(M0));
    }
    shelf.step(0xEE, Event::Reset).unwrap();
    for place in 0..3 {
        assert_eq!(shelf.show(place).unwrap().owner, None);
    }
}

#[test]
fn names_that_are_not_there_are_refused_before_the_devices_own() {
    let mut shelf = three();
    let before = shelf.clone();
    for (name, event) in
        [(0x71, [1, 0, 0, 0]), (0x71, [0, 9, 9, 9]), (3, [5, 1, 1, 1]), (3, [7, 9, 9, 9])]
    {
        assert_eq!(shelf.step(name, event), Err(Refusal::NotInRow));
    }
    assert_eq!(shelf.show(3), Err(Refusal::NotInRow));
    // An unknown kind names nothing.
    assert_eq!(shelf.step(0x71, [10, 0, 0, 0]).unwrap().outcome, Outcome::UnknownKind);
    assert_eq!(shelf.step(2, [7, 9, 9, 9]).unwrap().outcome, Outcome::FieldOutOfRange);
    assert_eq!(shelf, before);
}

#[test]
fn rows_are_refused_by_their_numbers() {
    assert_eq!(Shelf::new(&[]), Err(Refusal::EmptyRow));
    let many: Vec<_> = (0..17).map(|address| (address, Part::Pca9641)).collect();
    assert_eq!(Shelf::new(&many[..MOST_RECORDS]).unwrap().places(), MOST_RECORDS);
    assert_eq!(Shelf::new(&many), Err(Refusal::LongRow));
    let equal = [(1, Part::Pca9641), (2, Part::Pca9641), (1, Part::Tpt29641)];
    assert_eq!(Shelf::new(&equal), Err(Refusal::EqualAddresses));
    let mut row = three().row().to_vec();
    assert_eq!(Shelf::from_row(&row[1..]), Err(Refusal::OtherRowLength));
    assert_eq!(Shelf::from_row(&[]), Err(Refusal::EmptyRow));
    row[RECORD_LENGTH] = 0x70;
    assert_eq!(Shelf::from_row(&row), Err(Refusal::EqualAddresses));
    // 16 comes before 17, and for every event.
    row[2 * RECORD_LENGTH + 32] = 2;
    let before = row.clone();
    assert_eq!(Shelf::from_row(&row), Err(Refusal::ImageOutOfRange));
    assert_eq!(boundary::shelf_step(0x99, [10, 0, 0, 0], &mut row), 16);
    // Also in a row of more than 16, and 9 comes first.
    let mut long = row.repeat(6);
    assert_eq!(boundary::shelf_step(0, [6, 0, 0, 0], &mut long), 16);
    assert_eq!(boundary::shelf_step(0, [6, 0, 0, 0], &mut long[1..]), 9);
    assert_eq!(row, before);
}

#[test]
fn a_fresh_row_that_is_refused_is_left_as_it_was() {
    for (slots, room, number) in [
        (&[1, 0, 2][..], 78, 9),
        (&[1, 0, 2, 0], 77, 9),
        (&[1, 0, 2, 0], 79, 9),
        (&[1, 0, 2, 2], 79, 9),
        (&[], 0, 5),
        (&[1, 7, 1, 0], 78, 17),
        (&[1, 0, 2, 2], 78, 3),
        (&[1, 0, 2, 1], 78, 0),
    ] {
        let mut row = vec![0xA5; room];
        assert_eq!(boundary::shelf_fresh(slots, &mut row), number);
        assert_eq!(row == vec![0xA5; room], number != 0 || room == 0);
    }
}
