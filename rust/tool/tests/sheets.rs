//! Order sheets in words: what is ordered and from which sheet, empty boxes, a ticked 0, and sheets
//! that are none; and the events as a trace. Held to the independent model on generated sheets.

use gunwaleish::{run, Event, Master, Part, Pins, Refusal, Section, Sheet, SHEET_EVENTS};
use gunwaleish_tool::commands::compose::compose;
use gunwaleish_tool::commands::sheet::{sheet, Wanted};
use gunwaleish_tool::device::Device;
use gunwaleish_tool::each::Made;
use gunwaleish_tool::files::Input;
use gunwaleish_tool::sheet::faults::{fault, in_words, seen};
use gunwaleish_tool::sheet::BoxName;
use model::rng::Rng;
use model::sheet::{events_of_sheets, judge, look_up, offset_of};
use model::sheets::{complete_pair, damage_sheet, good_pair};

const EMPTY: [u8; 2] = [0, 0];

/// A sheet out of its six boxes.
fn sheet_of(boxes: [[u8; 2]; 6]) -> Vec<u8> {
    boxes.chunks(2).flat_map(|two| [&[2], &two[0][..], &two[1]].concat()).collect()
}

fn make(board: &[u8], house: &[u8], wanted: Wanted) -> Made {
    let input = |name: &str, bytes: &[u8]| Input { name: name.to_string(), bytes: bytes.to_vec() };
    sheet(&input("a.sheet", board), &input("b.sheet", house), wanted)
}

/// The words of a pair, and why it is refused.
fn told(board: &[u8], house: &[u8]) -> (String, String) {
    let made = make(board, house, Wanted::Words);
    let words = String::from_utf8(made.output.unwrap_or_default()).unwrap();
    (words, made.refused.unwrap_or_default())
}

/// The line of a box.
fn line(text: &str, name: BoxName) -> String {
    let part = format!("  {name}: ");
    let mut lines = text.lines().filter(|line| line.contains(&part));
    let line = lines.next().expect("no line of this box");
    assert_eq!(lines.next(), None);
    line.to_string()
}

/// Every box is told with the sheet and the value that the model finds, or as empty.
#[test]
fn each_box_is_told_as_the_model_finds_it() {
    let mut rng = Rng::new(106);
    let mut seen = [0; 3];
    for _ in 0..2000 {
        let ticked = rng.pick(&[20, 50, 90]);
        let [board, house] = good_pair(&mut rng, ticked);
        let (text, refused) = told(&board, &house);
        for name in BoxName::all() {
            let (section, controller) = (name.section.number(), name.controller.number());
            let found = look_up(&board, &house, section, controller);
            let (place, from) = match (found.number, found.sheet) {
                (14, _) => (0, "neither    "),
                (_, model::sheet::Sheet::Board) => (1, "board sheet"),
                (_, model::sheet::Sheet::House) => (2, "house sheet"),
            };
            seen[place] += 1;
            let line = line(&text, name);
            let empty = format!("{name}: empty on both sheets");
            assert_eq!(refused.contains(&empty), found.number == 14, "{refused}");
            match found.part {
                [] => assert_eq!(line, format!("{from}  {empty}")),
                part => assert!(line.starts_with(&format!("{from}  {name}: {}, ", part[1]))),
            }
            let over = place == 1 && house[found.offset] == 1;
            assert_eq!(line.ends_with(" on the house sheet)"), over, "{line}");
        }
        assert_eq!(text.contains("\nComplete: 12 events"), refused.is_empty());
        let number = "a.sheet, b.sheet: refusal 14: ";
        assert_eq!(text.contains("\nNot complete: "), refused.starts_with(number));
    }
    assert!(seen.iter().all(|&times| times > 1000), "{seen:?}");
}

/// The incident: both reserve boxes are empty on both sheets. Both are named.
#[test]
fn empty_boxes_are_all_named() {
    let board = sheet_of([EMPTY; 6]);
    let house = sheet_of([EMPTY, EMPTY, [1, 0], [1, 0], [1, 0], [1, 0]]);
    let (text, refused) = told(&board, &house);
    let empty =
        [0, 1].map(|m| format!("Downstream reserve, ms, controller {m}: empty on both sheets"));
    assert!(refused.ends_with(&format!("({}; {})", empty[0], empty[1])), "{refused}");
    assert!(empty.iter().all(|line| text.contains(&format!("\nneither      {line}\n"))));
    assert!(text.contains("\nNot complete: 2 boxes are empty on both sheets"));
    let one = sheet_of([[1, 0], EMPTY, EMPTY, EMPTY, EMPTY, EMPTY]);
    assert!(told(&one, &house).0.contains("\nNot complete: 1 box is empty on both sheets"));
    let (_, refused) = told(&board, &board);
    assert_eq!(refused.matches(": empty on both sheets").count(), 6);
}

/// A ticked reserve of 0 is told in so many words, and what the idle timer does to it.
#[test]
fn a_ticked_0_is_without_limit() {
    let reserve = |idle: [u8; 2]| {
        let board = sheet_of([[1, 0], [1, 9], [1, 0], [1, 0], idle, [1, 1]]);
        let name = BoxName { section: Section::Reserve, controller: Master::Zero };
        line(&told(&board, &sheet_of([EMPTY; 6])).0, name)
    };
    let limit =
        "board sheet  Downstream reserve, ms, controller 0: 0, which is without limit: the \
                 controller keeps the bus until it lets go";
    assert_eq!(reserve(EMPTY), limit);
    let off = "; its idle timer is off, so an idle bus does not end it";
    assert_eq!(reserve([1, 0]), format!("{limit}{off}"));
    let on =
        "; its idle timer is on, so an idle bus ends it too, at 101 idle ticks on a PCA9641, at \
              151 on a TPT29641";
    assert_eq!(reserve([1, 1]), format!("{limit}{on}"));
}

fn device(part: Part) -> Device {
    Device { address: 0x71, pins: Pins { ad3: 0, ad2: 0, ad1: 0, ad0: 1 }, part }
}

/// The line that says when controller 1 has its turn after the start.
fn turn_in(text: &str) -> &str {
    let mut lines = text.lines().skip_while(|line| !line.starts_with("After them controller 0"));
    lines.nth(1).expect("no line of the turn")
}

/// The words say when controller 1 is granted the bus after the start; a run on an idle bus shows it.
#[test]
fn the_turn_comes_as_it_is_told() {
    let rest = sheet_of([EMPTY, [1, 20], [1, 0], [1, 1], EMPTY, [1, 1]]);
    for reserve in [0, 1, 2, 50, 255] {
        for (idle, part) in [0, 1].into_iter().flat_map(|idle| Part::BOTH.map(|part| (idle, part)))
        {
            let board = sheet_of([[1, reserve], EMPTY, EMPTY, EMPTY, [1, idle], EMPTY]);
            let (text, _) = told(&board, &rest);
            let (said, tick) = match (reserve, idle, part) {
                (0, 0, _) => ("Controller 1 waits until controller 0 lets go, ".to_string(), None),
                (0, _, Part::Pca9641) => ("at 101 idle ticks on a PCA9641".to_string(), Some(101)),
                (0, _, _) => (", at 151 on a TPT29641.".to_string(), Some(151)),
                _ => (format!(" at tick {reserve} after the start"), Some(reserve.into())),
            };
            assert!(turn_in(&text).contains(&said), "{text}");
            let script = make(&board, &rest, Wanted::Script(device(part))).output.unwrap();
            let bytes = [script, b"tick 400\n".to_vec()].concat();
            let trace = compose(&Input { name: String::new(), bytes }).output.unwrap();
            let owners: Vec<_> = run(&trace).unwrap().answers.iter().map(|a| a.owner).collect();
            assert_eq!(owners[SHEET_EVENTS - 1], Some(Master::Zero));
            let turn = owners.iter().position(|&owner| owner == Some(Master::One));
            assert_eq!(turn.map(|at| at + 1 - SHEET_EVENTS), tick);
        }
    }
}

/// The trace has the model's events, for the pins and the part; its script gives the same bytes.
/// Nothing is written of a pair that is not complete.
#[test]
fn the_events_are_written_as_a_trace() {
    let mut rng = Rng::new(101);
    let mut refused = 0;
    for _ in 0..300 {
        let part = rng.pick(&Part::BOTH);
        let [board, house] =
            if rng.percent(70) { complete_pair(&mut rng) } else { good_pair(&mut rng, 70) };
        let trace = make(&board, &house, Wanted::Trace(device(part)));
        let script = make(&board, &house, Wanted::Script(device(part)));
        let Ok(events) = events_of_sheets(&board, &house) else {
            assert_eq!((trace.output, script.output), (None, None));
            assert!(trace.refused.is_some() && trace.refused == script.refused);
            refused += 1;
            continue;
        };
        let ran = run(&trace.output.clone().unwrap()).unwrap();
        assert_eq!((ran.address, ran.part), (0x71, part));
        assert_eq!(ran.events.into_iter().map(Event::bytes).collect::<Vec<_>>(), events);
        let bytes = script.output.unwrap();
        assert_eq!(compose(&Input { name: String::new(), bytes }).output, trace.output);
    }
    assert!(refused > 20, "{refused}");
}

/// A sheet that ticks every box, with some bytes changed.
fn with(changes: &[(usize, u8)]) -> Vec<u8> {
    let mut sheet = sheet_of([[1, 50], [1, 20], [1, 0], [1, 1], [1, 0], [1, 1]]);
    changes.iter().for_each(|&(at, value)| sheet[at] = value);
    sheet
}

const CUT: &str = "5: the sheet has under 15 bytes";
const COUNT: &str = "10: a section's count is not 2, the boxes of two controllers";
const BAD: &str = "3: a tick or value is out of range, or a box that is not ticked has a value";
const LONG: &str = "7: there are bytes after the sheet's end";
const UNTICKED: &str =
    "2, the value of \"Downstream reserve, ms, controller 0\", is 50, and the box is not ticked";

/// Sheets that are none, each with its refusal and what is told of its bytes.
fn no_sheets() -> [(Vec<u8>, &'static str, Vec<&'static str>); 9] {
    let counts = vec![
        "5, the count of the boxes \"Priority\", is 3, not 2",
        "10, the count of the boxes \"Idle timer\", is 0, not 2",
    ];
    let boxes = vec![
        UNTICKED,
        "13, the tick of \"Idle timer, controller 1\", is 9, not 0 or 1",
        "14, the value of \"Idle timer, controller 1\", is 9, not 0 or 1",
    ];
    let tick = "3, the tick of \"Downstream reserve, ms, controller 1\", is 2, not 0 or 1";
    let value = "7, the value of \"Priority, controller 0\", is 128, not 0 or 1";
    let good = with(&[]);
    [
        (vec![], CUT, vec!["0, the count of the boxes \"Downstream reserve, ms\", is missing"]),
        (good[..6].to_vec(), CUT, vec!["6, the tick of \"Priority, controller 0\", is missing"]),
        (
            good[..14].to_vec(),
            CUT,
            vec!["14, the value of \"Idle timer, controller 1\", is missing"],
        ),
        (with(&[(5, 3), (10, 0), (1, 7)]), COUNT, counts),
        (with(&[(3, 2)]), BAD, vec![tick]),
        (with(&[(7, 128)]), BAD, vec![value]),
        (with(&[(1, 0)]), BAD, vec![UNTICKED]),
        (with(&[(1, 0), (13, 9), (14, 9)]), BAD, boxes),
        ([&good[..], &[0]].concat(), LONG, vec!["15 is past its end"]),
    ]
}

/// Each refusal with its sheet and its bytes, all of them and not only the first.
#[test]
fn what_is_no_sheet_is_told_with_its_bytes() {
    let good = with(&[]);
    for (bad, number, bytes) in no_sheets() {
        let empty = if bad.is_empty() { "; it is empty" } else { "" };
        let expected = format!("refusal {number} (byte {}){empty}", bytes.join("; byte "));
        let (text, as_board) = told(&bad, &good);
        assert_eq!(text, "");
        assert_eq!(as_board, format!("a.sheet, the board sheet: {expected}"));
        let (_, as_house) = told(&good, &bad);
        assert_eq!(as_house, format!("b.sheet, the house sheet: {expected}"));
        let (_, both) = told(&bad, &bad);
        assert_eq!(both, format!("{as_board}; and {as_house}"));
    }
}

/// Damaged sheets: the number is the model's, and with the bytes that are told put right there is no
/// such fault any more.
#[test]
fn the_bytes_told_are_those_at_fault() {
    let mut rng = Rng::new(3);
    let mut faults = [0; 4];
    for _ in 0..20_000 {
        let [mut sheet, _] = good_pair(&mut rng, 60);
        while rng.percent(70) {
            damage_sheet(&mut rng, &mut sheet);
        }
        for which in [Sheet::Board, Sheet::House] {
            let found = fault(&sheet, which);
            assert_eq!(found.map_or(Ok(()), |refusal| Err(refusal.number())), judge(&sheet));
            let Some(refusal) = found else { continue };
            let places: Vec<usize> = seen(&sheet, refusal).iter().map(|seen| seen.byte).collect();
            assert!(!places.is_empty() && places.is_sorted(), "{places:?}");
            let said = in_words("a.sheet", which, &sheet, refusal);
            assert!(said.contains(&format!("(byte {}", places[0])), "{said}");
            let (kind, again) = put_right(&sheet, refusal, &places);
            faults[kind] += 1;
            assert_ne!(fault(&again, which), Some(refusal), "{sheet:?}");
        }
    }
    assert!(faults.iter().all(|&times| times > 300), "{faults:?}");
}

/// The sheet with these bytes put right.
fn put_right(sheet: &[u8], refusal: Refusal, places: &[usize]) -> (usize, Vec<u8>) {
    let mut again = sheet.to_vec();
    let kind = match refusal {
        Refusal::SheetCut => {
            assert_eq!(places, [sheet.len()]);
            again.resize(15, 0);
            0
        }
        Refusal::WrongBoxCount => {
            places.iter().for_each(|&at| again[at] = 2);
            1
        }
        Refusal::BadBox => {
            let boxes = [0, 1, 2].into_iter().flat_map(|s| [offset_of(s, 0), offset_of(s, 1)]);
            let wrong = boxes.filter(|at| places.contains(at) || places.contains(&(at + 1)));
            wrong.for_each(|at| again[at..at + 2].fill(0));
            2
        }
        _ => {
            again.truncate(places[0]);
            3
        }
    };
    (kind, again)
}
