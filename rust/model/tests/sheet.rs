//! The order sheet of #106: boxes looked up, refusals in order, and the twelve events.

mod bench;
use bench::*;
use model::happenings::Happenings;
use model::rng::Rng;
use model::sheet::*;
use model::sheets::*;

/// A sheet out of its six boxes.
fn sheet(boxes: [[u8; 2]; 6]) -> Vec<u8> {
    boxes.chunks(2).flat_map(|two| [&[2], &two[0][..], &two[1]].concat()).collect()
}

const OPEN: [u8; 2] = [0, 0];

/// Nothing is ticked.
fn open() -> Vec<u8> {
    sheet([OPEN; 6])
}

/// A house sheet that ticks every box.
fn full() -> Vec<u8> {
    sheet([[1, 50], [1, 60], [1, 0], [1, 1], [1, 1], [1, 0]])
}

/// A refusal hands back the empty front of the board sheet.
fn assert_refused(board: &[u8], house: &[u8], section: u8, controller: u8, number: u8) {
    let found = look_up(board, house, section, controller);
    assert_eq!((found.number, found.sheet, found.offset), (number, Sheet::Board, 0));
    assert!(found.part.is_empty() && found.part.as_ptr() == board.as_ptr());
}

/// Three sections, each after its count byte 2, a box for each controller.
#[test]
fn offsets() {
    let bytes = sheet([[1, 7], [1, 8], [1, 0], [1, 1], [1, 1], [1, 0]]);
    assert_eq!(bytes, [2, 1, 7, 1, 8, 2, 1, 0, 1, 1, 2, 1, 1, 1, 0]);
    let places = [(0, 0, 1), (0, 1, 3), (1, 0, 6), (1, 1, 8), (2, 0, 11), (2, 1, 13)];
    for (section, controller, offset) in places {
        let house = open();
        let found = look_up(&bytes, &house, section, controller);
        assert_eq!((found.number, found.sheet, found.offset), (0, Sheet::Board, offset));
        assert_eq!(found.part, &bytes[offset..offset + 2]);
        let found = look_up(&house, &bytes, section, controller);
        assert_eq!((found.number, found.sheet, found.offset), (0, Sheet::House, offset));
        assert!(found.part.as_ptr() == bytes[offset..].as_ptr());
        assert_refused(&house, &house, section, controller, 14);
    }
}

/// "A ticked reserve of 0 is a real order for 'without limit'; an unticked one never becomes 0."
#[test]
fn reserve_of_0() {
    let zero = sheet([[1, 0], OPEN, OPEN, OPEN, OPEN, OPEN]);
    assert_eq!(look_up(&zero, &full(), 0, 0).part, [1, 0]);
    assert_eq!(look_up(&open(), &zero, 0, 0).part, [1, 0]);
    assert_eq!(look_up(&open(), &full(), 0, 0).part, [1, 50]);
    assert_refused(&open(), &open(), 0, 0, 14);
    assert_refused(&zero, &open(), 0, 1, 14);
}

/// Every byte in every place of a sheet, beside a good one: by number what is wrong with it.
#[test]
fn every_byte() {
    let good = full();
    for at in 0..SHEET_LENGTH {
        for value in 0..=255u8 {
            let mut bytes = good.clone();
            bytes[at] = value;
            let number = match at % 5 {
                0 if value != 2 => 10,
                // A tick of 0 is good only where the value is 0.
                1 | 3 if value > 1 || (value == 0 && good[at + 1] != 0) => 3,
                2 | 4 if at > 4 && value > 1 => 3,
                _ => 0,
            };
            assert_eq!(judge(&bytes), if number == 0 { Ok(()) } else { Err(number) }, "{at}");
            if number != 0 {
                assert_refused(&bytes, &good, 0, 0, number);
                assert_refused(&good, &bytes, 0, 0, number);
            }
        }
    }
    // An unticked box with a value is 3, in every section, whatever the other sheet has.
    for at in [1, 3, 6, 8, 11, 13] {
        let mut bytes = open();
        bytes[at + 1] = 1;
        assert_refused(&bytes, &full(), 0, 0, 3);
        assert_refused(&full(), &bytes, 0, 0, 3);
    }
}

/// Within a sheet 5, 10, 3, 7, each over the whole sheet, with the later ones also due.
#[test]
fn order_within_a_sheet() {
    for length in 0..SHEET_LENGTH {
        assert_refused(&vec![9; length], &full(), 9, 9, 5);
        assert_refused(&full(), &vec![9; length], 9, 9, 5);
    }
    // The last count is looked at before the first box, and both before what follows.
    let mut bytes = [&full()[..], &[0]].concat();
    assert_refused(&bytes, &full(), 9, 9, 7);
    bytes[1] = 2;
    assert_refused(&bytes, &full(), 9, 9, 3);
    bytes[10] = 1;
    assert_refused(&bytes, &full(), 9, 9, 10);
    assert_refused(&bytes[..14], &full(), 9, 9, 5);
}

/// All of the board sheet, then all of the house sheet, then 15, then 14.
#[test]
fn order_of_the_sheets() {
    let long = [full(), vec![2]].concat();
    assert_refused(&long, &[], 9, 9, 7);
    assert_refused(&open(), &[], 9, 9, 5);
    assert_refused(&open(), &long, 9, 9, 7);
    // The house sheet is looked at also where the board sheet ticks the box.
    assert_refused(&full(), &long, 0, 0, 7);
    assert_refused(&open(), &open(), 9, 0, 15);
    assert_refused(&open(), &open(), 0, 2, 15);
    assert_refused(&open(), &open(), 2, 1, 14);
}

/// Sections 0 to 2 and controllers 0 and 1, and no others.
#[test]
fn every_section_and_controller() {
    let (board, house) = (full(), open());
    for section in 0..=255 {
        for controller in 0..=255 {
            if section > 2 || controller > 1 {
                assert_refused(&board, &house, section, controller, 15);
            } else {
                assert_eq!(look_up(&board, &house, section, controller).number, 0);
            }
        }
    }
}

/// The twelve events: those of master 0, then those of master 1.
#[test]
fn twelve_events() {
    let board = sheet([OPEN, [1, 0], [1, 1], OPEN, OPEN, OPEN]);
    let expected = [
        command(0, 3),
        write(0, 50),
        stop(0),
        command(0, 1),
        write(0, 0xA1),
        stop(0),
        command(1, 3),
        write(1, 0),
        stop(1),
        command(1, 1),
        write(1, 0x81),
        stop(1),
    ];
    let mut buffer = [0xEE; 50];
    let said = sheet_events(&board, &full(), &mut buffer);
    assert_eq!(said, Ordered { number: 0, events: 12 });
    assert_eq!(buffer[..48], expected.concat());
    assert_eq!(buffer[48..], [0xEE; 2]);
    assert_eq!(sheet_events(&board, &full(), &mut buffer[..48]).number, 0);
}

/// Each value of CONTR, from priority and idle.
#[test]
fn contr_values() {
    for (priority, idle, contr) in [(0, 0, 0x01), (1, 0, 0x81), (0, 1, 0x21), (1, 1, 0xA1)] {
        let boxes = [[1, 9], [1, 8], [1, priority], [1, 1 - priority], [1, idle], [1, 1 - idle]];
        let events = events_of_sheets(&sheet(boxes), &open()).unwrap();
        assert_eq!((events[4], events[10]), (write(0, contr), write(1, 0xA2 - contr)));
    }
}

/// Sheets, 14, then 9: a refusal writes nothing. No section is asked for, so there is no 15.
#[test]
fn refusals_of_the_events() {
    let assert_events = |board: &[u8], house: &[u8], room: usize, number: u8| {
        let mut buffer = vec![0xEE; room];
        let said = sheet_events(board, house, &mut buffer);
        assert_eq!((said, buffer), (Ordered { number, events: 0 }, vec![0xEE; room]));
    };
    let long = [open(), vec![2]].concat();
    assert_events(&long, &[], 0, 7);
    assert_events(&open(), &[], 0, 5);
    assert_events(&open(), &open(), 0, 14);
    assert_events(&open(), &open(), 60, 14);
    for room in [0, 4, 47] {
        assert_events(&full(), &open(), room, 9);
    }
    // One box short, whichever it is.
    for at in [1, 3, 6, 8, 11, 13] {
        let mut bytes = full();
        bytes[at..at + 2].copy_from_slice(&OPEN);
        assert_events(&bytes, &open(), 60, 14);
        assert_events(&open(), &bytes, 0, 14);
    }
}

/// On a fresh device of either kind all twelve are done, and both registers hold what was ordered.
#[test]
fn events_on_a_fresh_device() {
    for seed in 0..200 {
        let [board, house] = complete_pair(&mut Rng::new(seed));
        let mut device = Device::power_up_of(model::part::BOTH_KINDS[seed as usize % 2]);
        let answer = run(&mut device, &events_of_sheets(&board, &house).unwrap());
        assert_eq!(owner(answer), Some(0));
        for m in [0, 1] {
            let value = |section| look_up(&board, &house, section, m).part[1];
            assert_eq!(get(&mut device, m, 3), value(0));
            let granted = if m == 0 { 0x02 } else { 0x00 };
            let contr = 0x01 + 0x80 * value(1) + 0x20 * value(2) + granted;
            assert_eq!(get(&mut device, m, 1), contr);
        }
    }
}

/// The random sheets come to everything.
#[test]
fn random_sheets_reach_everything() {
    let mut sights = Happenings::default();
    for seed in 0..1500 {
        let mut rng = Rng::new(seed);
        let mut pair = good_pair(&mut rng, 50);
        for sheet in &mut pair {
            while rng.percent(30) {
                damage_sheet(&mut rng, sheet);
            }
        }
        let [board, house] = pair;
        sights.see_box(&board, &house, rng.below(4) as u8, rng.below(3) as u8);
        sights.see_sheet_events(&board, &house);
        let [board, house] = complete_pair(&mut rng);
        sights.see_sheet_events(&board, &house);
    }
    let missing: Vec<_> = SHEET_SIGHTS.iter().filter(|name| sights.count(name) == 0).collect();
    assert!(missing.is_empty(), "never: {missing:?}");
    let unnamed: Vec<_> = sights.counted().filter(|name| !SHEET_SIGHTS.contains(name)).collect();
    assert!(unnamed.is_empty(), "without a name: {unnamed:?}");
}
