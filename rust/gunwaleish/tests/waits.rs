//! How long a controller can wait by two order sheets: each grade at its edges, for both controllers
//! and both parts, and each refusal. The many cases are in `rust/compare`.

#![cfg(feature = "alloc")]

use gunwaleish::{
    boundary, run, sheet_events, sheet_wait, write_trace, Event, Master, Part, Refusal, Wait,
    SHEET_LENGTH,
};

/// What is ordered for one controller: its reserve, and 1 if its idle timer is on.
type Setting = [u8; 2];

/// A sheet that ticks every box, priority with 0.
fn sheet([s0, s1]: [Setting; 2]) -> [u8; SHEET_LENGTH] {
    let ([r0, i0], [r1, i1]) = (s0, s1);
    [2, 1, r0, 1, r1, 2, 1, 0, 1, 0, 2, 1, i0, 1, i1]
}

/// One that ticks none.
const BARE: [u8; SHEET_LENGTH] = [2, 0, 0, 0, 0, 2, 0, 0, 0, 0, 2, 0, 0, 0, 0];

/// The sheet with this setting for the controller that `waiting` waits behind, and 7 with the idle
/// timer on for the waiting one itself, which does not bear on its wait.
fn behind(waiting: Master, holder: Setting) -> [u8; SHEET_LENGTH] {
    match waiting {
        Master::Zero => sheet([[7, 1], holder]),
        Master::One => sheet([holder, [7, 1]]),
    }
}

fn limit(part: Part) -> u16 {
    match part {
        Part::Pca9641 => 101,
        Part::Tpt29641 => 151,
    }
}

#[test]
fn the_grades_of_both_controllers_on_both_parts() {
    for part in Part::BOTH {
        for waiting in Master::BOTH {
            let told = |reserve, idle| {
                let sheet = behind(waiting, [reserve, idle]);
                let wait = sheet_wait(&sheet, &BARE, waiting, part).unwrap();
                let packed = boundary::sheet_wait(&sheet, &BARE, waiting.number(), part.number());
                let ticks = wait.ticks().unwrap_or(0);
                assert_eq!(packed, 256 * u64::from(wait.grade()) + 65536 * u64::from(ticks));
                // As the house sheet it says the same, and as both.
                assert_eq!(sheet_wait(&BARE, &sheet, waiting, part), Ok(wait));
                assert_eq!(sheet_wait(&sheet, &sheet, waiting, part), Ok(wait));
                wait
            };
            for idle in [0, 1] {
                for reserve in [1, 50, 255] {
                    let ticks = u16::from(reserve) + 1;
                    assert_eq!(told(reserve, idle), Wait::Live { ticks });
                }
            }
            assert_eq!(told(0, 1), Wait::Silent { ticks: limit(part) });
            assert_eq!(told(0, 0), Wait::Unbounded);
        }
    }
}

/// The board sheet's box counts if it is ticked there, also with 00h.
#[test]
fn the_boards_box_comes_first() {
    let house = sheet([[50, 1], [20, 1]]);
    let wait = |board: &[u8], waiting| sheet_wait(board, &house, waiting, Part::Pca9641);
    assert_eq!(wait(&BARE, Master::One), Ok(Wait::Live { ticks: 51 }));
    assert_eq!(wait(&BARE, Master::Zero), Ok(Wait::Live { ticks: 21 }));
    let mut board = BARE;
    board[1] = 1;
    assert_eq!(wait(&board, Master::One), Ok(Wait::Silent { ticks: 101 }));
    board[11] = 1;
    assert_eq!(wait(&board, Master::One), Ok(Wait::Unbounded));
    assert_eq!(wait(&board, Master::Zero), Ok(Wait::Live { ticks: 21 }));
}

#[test]
fn a_wait_in_words() {
    let words = [Wait::Live { ticks: 51 }, Wait::Silent { ticks: 101 }, Wait::Unbounded];
    assert_eq!(
        words.map(|wait| wait.to_string()),
        [
            "at most 51 ms behind a holder that sends its STOPs",
            "at most 101 ms, and only behind a silent holder on an idle bus",
            "without limit",
        ]
    );
}

/// Each refusal, with all those that come after it wrong as well. A refusal has no grade and no
/// ticks: its number is all of the result.
#[test]
fn waits_are_refused_in_order() {
    let full = sheet([[50, 0], [20, 1]]);
    let changed = |bytes: &[(usize, u8)]| {
        let mut sheet = full.to_vec();
        bytes.iter().for_each(|&(at, value)| sheet[at] = value);
        sheet
    };
    let longer = |mut sheet: Vec<u8>| {
        sheet.push(0);
        sheet
    };
    let cases = [
        (vec![3; 14], vec![], 2, 2, 5_u8),
        (longer(changed(&[(10, 3), (1, 2)])), vec![], 2, 2, 10),
        (longer(changed(&[(1, 2)])), vec![], 2, 2, 3),
        (longer(full.to_vec()), vec![], 2, 2, 7),
        (BARE.to_vec(), vec![3; 14], 2, 2, 5),
        (BARE.to_vec(), longer(changed(&[(5, 1), (1, 2)])), 2, 2, 10),
        (BARE.to_vec(), longer(changed(&[(12, 2)])), 2, 2, 3),
        (BARE.to_vec(), longer(full.to_vec()), 2, 2, 7),
        (BARE.to_vec(), BARE.to_vec(), 2, 2, 15),
        (BARE.to_vec(), BARE.to_vec(), 255, 0, 15),
        (BARE.to_vec(), BARE.to_vec(), 1, 2, 3),
        (BARE.to_vec(), BARE.to_vec(), 1, 1, 14),
    ];
    for (board, house, controller, kind, number) in cases {
        let said = boundary::sheet_wait(&board, &house, controller, kind);
        assert_eq!(said, u64::from(number), "{board:?} {house:?} {controller} {kind}");
    }
    let refused = |board: &[u8]| sheet_wait(board, &BARE, Master::Zero, Part::Tpt29641);
    assert_eq!(refused(&full[..14]), Err(Refusal::SheetCut));
    assert_eq!(refused(&changed(&[(0, 0)])), Err(Refusal::WrongBoxCount));
    assert_eq!(refused(&changed(&[(13, 0)])), Err(Refusal::BadBox));
    assert_eq!(refused(&longer(full.to_vec())), Err(Refusal::BytesAfterSheet));
}

/// Any empty box takes the figure from both controllers, also one that the wait does not go by.
#[test]
fn an_empty_box_has_no_figure() {
    for place in [1, 3, 6, 8, 11, 13] {
        let mut board = sheet([[50, 0], [20, 1]]);
        board[place..place + 2].fill(0);
        for (waiting, part) in Master::BOTH.into_iter().zip(Part::BOTH) {
            let wait = sheet_wait(&board, &BARE, waiting, part);
            assert_eq!(wait, Err(Refusal::EmptyBox));
        }
    }
}

/// Sets a master's CONTR, and sends its STOP.
fn sets_contr(master: Master, value: u8) -> [Event; 3] {
    [Event::Command { master, code: 1 }, Event::Write { master, value }, Event::Stop { master }]
}

/// The owner after each tick of these events, which come after those that the sheet orders.
fn owners(sheet: &[u8], part: Part, then: &[Event]) -> Vec<Option<Master>> {
    let start = sheet_events(sheet, &BARE).unwrap();
    let events = [&start[..], then].concat();
    let run = run(&write_trace([0; 4], part, &events).unwrap()).unwrap();
    let ticks = events.iter().zip(&run.answers).filter(|(event, _)| **event == Event::Tick);
    ticks.map(|(_, answer)| answer.owner).collect()
}

/// The longest wait behind a live holder: both withdraw, then the holder asks first and sends its STOP
/// a tick later, and the other asks in between. It owns at the figure, and not a tick before.
#[test]
fn a_live_holder_is_waited_for_so_long() {
    for (part, waiting) in
        Part::BOTH.into_iter().flat_map(|part| Master::BOTH.map(|waiting| (part, waiting)))
    {
        for reserve in [1, 50, 255] {
            let sheet = behind(waiting, [reserve, 0]);
            let ticks = sheet_wait(&sheet, &BARE, waiting, part).unwrap().ticks().unwrap();
            let master = waiting.partner();
            let events = [
                &sets_contr(Master::Zero, 0)[..],
                &sets_contr(Master::One, 0),
                &sets_contr(master, 1)[..2],
                &sets_contr(waiting, 1),
                &[Event::Tick, Event::Stop { master }],
                &vec![Event::Tick; usize::from(ticks) - 1],
            ];
            let owners = owners(&sheet, part, &events.concat());
            let first = owners.iter().position(|&owner| owner == Some(waiting));
            assert_eq!(first, Some(usize::from(ticks) - 1), "{part} {waiting} {reserve}");
        }
    }
}

/// Behind 00h the idle timer alone lets controller 1 in, at the part's limit, while controller 0's next
/// CONTR byte keeps it on: 25h does, and 05h takes its place.
#[test]
fn the_idle_box_lasts_until_the_next_contr_byte() {
    let sheet = behind(Master::One, [0, 1]);
    let quiet = |value| [&sets_contr(Master::Zero, value)[..], &[Event::Tick; 300]].concat();
    for part in Part::BOTH {
        let wait = sheet_wait(&sheet, &BARE, Master::One, part).unwrap();
        let kept = owners(&sheet, part, &quiet(0x25));
        let first = kept.iter().position(|&owner| owner == Some(Master::One)).unwrap();
        // The first tick stands at place 0.
        assert_eq!(wait, Wait::Silent { ticks: first as u16 + 1 });
        let lost = owners(&sheet, part, &quiet(0x05));
        assert!(lost.iter().all(|&owner| owner == Some(Master::Zero)));
    }
}

/// A holder of 00h that is not silent keeps the bus with its idle timer on too: a short transfer before
/// each limit is enough, and the bus is idle in between.
#[test]
fn behind_a_live_holder_of_00h_there_is_no_bound() {
    let sheet = behind(Master::One, [0, 1]);
    let level = |scl| Event::Lines { scl, sda: scl, int_in: true };
    for part in Part::BOTH {
        let quiet = vec![Event::Tick; usize::from(limit(part)) - 1];
        let round = [&quiet[..], &[level(false), level(true)]].concat();
        let events = [&sets_contr(Master::Zero, 0x25)[..], &round.repeat(20)].concat();
        let owners = owners(&sheet, part, &events);
        assert_eq!(owners.len(), 20 * quiet.len());
        assert!(owners.iter().all(|&owner| owner == Some(Master::Zero)));
    }
}
