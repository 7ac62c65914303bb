//! The program `forms`, which runs the forms that document 01 orders: its stored output is what the
//! model says of its stored input.

use std::fs;
use std::path::Path;

use model::sheet::{look_up, Sheet, SHEET_LENGTH};
use model::trace::{four, hex};
use model::{Device, Kind, Record, Shelf};

/// The bytes of a name and an event.
const NAMED_BYTES: usize = 5;

/// The boxes that are looked up, by section and controller: every one there is, and one that is not.
const BOXES: [(u8, u8); 7] = [(0, 0), (0, 1), (1, 0), (1, 1), (2, 0), (2, 1), (3, 0)];

fn file(name: &str) -> Vec<u8> {
    let folder = Path::new(env!("CARGO_MANIFEST_DIR")).join("../../crates/forms");
    fs::read(folder.join(name)).expect(name)
}

/// A name and an event.
type Named = (u8, [u8; 4]);

/// The input's parts: board sheet, house sheet, and events with their names.
fn parts(input: &[u8]) -> (&[u8], &[u8], Vec<Named>) {
    let (board, rest) = input.split_at(SHEET_LENGTH);
    let (house, rest) = rest.split_at(SHEET_LENGTH);
    let events = rest.chunks_exact(NAMED_BYTES);
    (board, house, events.map(|named| (named[0], four(&named[1..]))).collect())
}

/// The program's shelf: a fresh device of either kind.
fn fresh_shelf() -> Shelf {
    let record = |address, kind| Record { address, device: Device::power_up_of(kind) };
    Shelf { row: vec![record(0x70, Kind::Pca9641), record(0x71, Kind::Tpt29641)] }
}

/// What the shelf answers to each event, and a PCA9641 by itself.
fn answers(events: &[Named]) -> Vec<([u8; 4], [u8; 4])> {
    let mut shelf = fresh_shelf();
    let mut alone = Device::power_up_of(Kind::Pca9641);
    events.iter().map(|(name, event)| (shelf.step(*name, *event), alone.step(*event))).collect()
}

/// The text that the program prints.
fn text(input: &[u8]) -> String {
    let (board, house, events) = parts(input);
    let mut text = String::new();
    for (section, controller) in BOXES {
        let found = look_up(board, house, section, controller);
        let part = if found.number == 0 { hex(found.part) } else { "-".to_string() };
        text += &format!("{section}{controller} {part}\n");
    }
    for ((name, event), (shelf, alone)) in events.iter().zip(answers(&events)) {
        text += &format!("{name:02X} {} {} {}\n", hex(event), hex(&shelf), hex(&alone));
    }
    text
}

#[test]
fn the_stored_output_is_the_models() {
    let output = String::from_utf8(file("stdout")).unwrap();
    assert_eq!(output, text(&file("stdin")));
}

/// A box comes from the board sheet, also where the house sheet has it too, from the house sheet, and
/// from neither.
#[test]
fn the_stored_sheets_have_every_case() {
    let input = file("stdin");
    let (board, house, _) = parts(&input);
    let found = BOXES.map(|(section, controller)| look_up(board, house, section, controller));
    let taken = |sheet| found.iter().filter(|box_| box_.number == 0 && box_.sheet == sheet).count();
    assert_eq!((taken(Sheet::Board), taken(Sheet::House)), (3, 2));
    assert!(found.iter().any(|box_| box_.sheet == Sheet::Board && house[box_.offset] == 1));
    let refused: Vec<u8> = found.iter().map(|box_| box_.number).filter(|n| *n > 0).collect();
    assert_eq!(refused, [14, 15]);
}

/// The stored events come to every answer that the calls of a row have, and each shows that it
/// reached whom it has to.
#[test]
fn the_stored_events_have_every_case() {
    let input = file("stdin");
    let (_, _, events) = parts(&input);
    let answers = answers(&events);
    let answers_to = |named: Named| -> Vec<_> {
        let all = events.iter().zip(&answers);
        all.filter(|(event, _)| **event == named).map(|(_, answers)| *answers).collect()
    };
    let outcomes = |n: u8| answers.iter().filter(|(shelf, _)| shelf[0] == n).count();
    assert_eq!([2, 3, 4, 18].map(outcomes), [1, 1, 1, 2]);
    // The reserve of either device is over in the second tick for all: the first has a next owner.
    let ticks = answers_to((0, [6, 0, 0, 0]));
    assert_eq!((ticks.len(), ticks[1].0), (2, [0, 0, 0x22, 0x0C]));
    assert_eq!(answers_to((0x71, [0, 1, 2, 0]))[0].0[2], 0);
    // The pointer of the TPT29641 rolls over after a write, and its ID is read; that of a PCA9641 stays.
    let read = answers_to((0x71, [2, 0, 0, 0]))[0];
    assert_eq!(read, ([0, 0x38, 0, 0x0C], [0, 0, 0x2A, 0x0C]));
}

/// A reset of all reaches the second device too: it was owned, and then asks for nothing.
#[test]
fn the_stored_reset_reaches_all() {
    let input = file("stdin");
    let (_, _, events) = parts(&input);
    let answers = answers(&events);
    let at = events.iter().position(|(_, event)| *event == [8, 0, 0, 0]).expect("is there");
    assert_eq!((answers[at - 1].0[2] & 3, answers[at].0), (1, [0, 0, 0, 0x0C]));
    assert!(answers[at + 1..].iter().all(|(shelf, _)| shelf[..3] == [0; 3]));
}
