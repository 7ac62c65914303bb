//! The order sheet (document 02, #106): boxes looked up, the twelve events, and each refusal. The
//! many cases are in `rust/compare`.

#![cfg(feature = "alloc")]

use gunwaleish::{
    boundary, run, sheet_box, sheet_events, sheet_events_into, write_trace, Event, Found, Master,
    Part, Refusal, Section, Sheet, SHEET_EVENTS, SHEET_LENGTH,
};

/// A sheet out of its six boxes.
fn sheet(boxes: [[u8; 2]; 6]) -> [u8; SHEET_LENGTH] {
    let [r0, r1, p0, p1, i0, i1] = boxes;
    let mut bytes = [2; SHEET_LENGTH];
    for (place, pair) in [[r0, r1], [p0, p1], [i0, i1]].into_iter().enumerate() {
        bytes[5 * place + 1..][..4].copy_from_slice(&pair.concat());
    }
    bytes
}

const EMPTY: [u8; 2] = [0, 0];

fn bare() -> [u8; SHEET_LENGTH] {
    sheet([EMPTY; 6])
}

/// The pair of `crates/sheets/specs/Examples.antt`.
fn board() -> [u8; SHEET_LENGTH] {
    sheet([[1, 30], EMPTY, [1, 0], EMPTY, [1, 1], EMPTY])
}

fn house() -> [u8; SHEET_LENGTH] {
    sheet([[1, 50], [1, 20], [1, 1], [1, 1], [1, 0], [1, 1]])
}

#[test]
fn a_box_is_the_boards_if_ticked_else_the_houses() {
    let (board, house) = (board(), house());
    let cases = [
        (Section::Reserve, Master::Zero, Sheet::Board, 1, 30),
        (Section::Reserve, Master::One, Sheet::House, 3, 20),
        (Section::Priority, Master::Zero, Sheet::Board, 6, 0),
        (Section::Priority, Master::One, Sheet::House, 8, 1),
        (Section::Idle, Master::Zero, Sheet::Board, 11, 1),
        (Section::Idle, Master::One, Sheet::House, 13, 1),
    ];
    for (section, controller, sheet, offset, value) in cases {
        let found = Found { sheet, offset, value };
        assert_eq!(sheet_box(&board, &house, section, controller), Ok(found));
    }
    assert_eq!([Sheet::Board, Sheet::House].map(|s| s.to_string()), ["board sheet", "house sheet"]);
}

/// A ticked 0 is an order, and beats the house sheet; an empty box is refused.
#[test]
fn an_empty_box_is_no_0() {
    let zero = sheet([[1, 0], EMPTY, EMPTY, EMPTY, EMPTY, EMPTY]);
    let reserve = |board: &[u8], house: &[u8], controller| {
        sheet_box(board, house, Section::Reserve, controller)
    };
    let found = Found { sheet: Sheet::Board, offset: 1, value: 0 };
    assert_eq!(reserve(&zero, &house(), Master::Zero), Ok(found));
    assert_eq!(reserve(&bare(), &zero, Master::Zero), Ok(Found { sheet: Sheet::House, ..found }));
    assert_eq!(reserve(&zero, &bare(), Master::One), Err(Refusal::EmptyBox));
    for section in Section::ALL {
        for controller in Master::BOTH {
            let empty = sheet_box(&bare(), &bare(), section, controller);
            assert_eq!(empty, Err(Refusal::EmptyBox));
        }
    }
}

#[test]
fn sections_have_numbers_and_names() {
    let names = ["Downstream reserve, ms", "Priority", "Idle timer"];
    for (number, (section, name)) in (0..).zip(Section::ALL.into_iter().zip(names)) {
        assert_eq!((section.number(), Section::of(number)), (number, Some(section)));
        assert_eq!(section.to_string(), name);
    }
    assert_eq!(Section::of(3), None);
}

#[test]
fn a_complete_pair_gives_twelve_events() {
    let six = |master, reserve, control| {
        [
            Event::Command { master, code: 3 },
            Event::Write { master, value: reserve },
            Event::Stop { master },
            Event::Command { master, code: 1 },
            Event::Write { master, value: control },
            Event::Stop { master },
        ]
    };
    let expected = [six(Master::Zero, 30, 0x21), six(Master::One, 20, 0xA1)].concat();
    let events = sheet_events(&board(), &house()).unwrap();
    assert_eq!(events.as_slice(), expected);
    let mut buffer = [0xEE; 50];
    assert_eq!(sheet_events_into(&board(), &house(), &mut buffer), Ok(SHEET_EVENTS));
    assert_eq!(buffer[..48], expected.iter().flat_map(|event| event.bytes()).collect::<Vec<_>>());
    assert_eq!(buffer[48..], [0xEE; 2]);
}

/// Started by its sheets and left to itself, a shelf of either part gives the waiting partner the
/// bus at the tick that completes the reserve, and with a ticked 0 and no idle timer never.
#[test]
fn a_started_shelf_gives_the_partner_its_turn() {
    for (reserve, part) in
        [(1, Part::Pca9641), (50, Part::Tpt29641), (255, Part::Pca9641), (0, Part::Tpt29641)]
    {
        let board = sheet([[1, reserve], EMPTY, EMPTY, EMPTY, EMPTY, EMPTY]);
        let mut events = sheet_events(&board, &house()).unwrap().to_vec();
        events.extend([Event::Tick; 300]);
        let run = run(&write_trace([0; 4], part, &events).unwrap()).unwrap();
        let owners: Vec<_> =
            run.answers[SHEET_EVENTS..].iter().map(|answer| answer.owner).collect();
        let turn = owners.iter().position(|&owner| owner == Some(Master::One));
        // The first tick stands at place 0.
        assert_eq!(turn, usize::from(reserve).checked_sub(1), "{reserve}");
        let until = turn.unwrap_or(owners.len());
        assert!(owners[..until].iter().all(|&owner| owner == Some(Master::Zero)));
    }
}

/// Each refusal, with all those that come after it wrong as well.
#[test]
fn sheets_are_refused_in_order() {
    let long = |mut sheet: Vec<u8>, at: usize, value: u8| {
        sheet[at] = value;
        sheet.push(0);
        sheet
    };
    let no_value = sheet([[0, 50], EMPTY, EMPTY, EMPTY, EMPTY, EMPTY]);
    let cases: [(Vec<u8>, Vec<u8>, Refusal, u8); 9] = [
        (vec![3; 14], vec![], Refusal::SheetCut, 5),
        (long(no_value.to_vec(), 10, 3), vec![], Refusal::WrongBoxCount, 10),
        (long(no_value.to_vec(), 10, 2), vec![], Refusal::BadBox, 3),
        (long(house().to_vec(), 1, 2), vec![], Refusal::BadBox, 3),
        (long(house().to_vec(), 7, 2), vec![], Refusal::BadBox, 3),
        (long(house().to_vec(), 0, 2), vec![], Refusal::BytesAfterSheet, 7),
        (bare().to_vec(), vec![2; 14], Refusal::SheetCut, 5),
        (bare().to_vec(), no_value.to_vec(), Refusal::BadBox, 3),
        (bare().to_vec(), bare().to_vec(), Refusal::EmptyBox, 14),
    ];
    for (board, house, refusal, number) in cases {
        let found = sheet_box(&board, &house, Section::Reserve, Master::Zero);
        assert_eq!(found, Err(refusal));
        let mut events = [0xEE; 47];
        assert_eq!(sheet_events_into(&board, &house, &mut events), Err(refusal));
        assert_eq!(events, [0xEE; 47]);
        assert_eq!(sheet_events(&board, &house), Err(refusal));
        assert_eq!(refusal.number(), number);
        assert!(refusal.to_string().starts_with(&format!("refusal {number}: ")));
    }
    let mut short = [0xEE; 47];
    let cut = sheet_events_into(&board(), &house(), &mut short);
    assert_eq!((cut, short), (Err(Refusal::TooLittleRoom), [0xEE; 47]));
}

/// 15 comes before 14, and after the sheets' own.
#[test]
fn there_are_six_boxes() {
    for (section, controller) in [(3, 0), (0, 2), (255, 255)] {
        assert_eq!(boundary::sheet_box(&bare(), &bare(), section, controller), 15);
        assert_eq!(boundary::sheet_box(&bare(), &[], section, controller), 5);
    }
    assert_eq!(Refusal::NoSuchBox.number(), 15);
    assert!(Refusal::NoSuchBox.to_string().starts_with("refusal 15: "));
}

/// The same sheet may stand for both: they are only read.
#[test]
fn one_sheet_for_both() {
    let house = house();
    let found = Found { sheet: Sheet::Board, offset: 3, value: 20 };
    assert_eq!(sheet_box(&house, &house, Section::Reserve, Master::One), Ok(found));
    assert!(sheet_events(&house, &house).is_ok());
}
