//! The order sheet on both sides (document 02, #106).

use gunwaleish::{boundary, Master, Section};
use model::rng::Rng;
use model::sheet::{events_of_sheets, Found, Sheet, IDLE, SHEET_LENGTH};
use model::sheets::{complete_pair, damage_sheet, good_pair};
use model::trace::hex;
use model::{look_up, sheet_events};

use crate::check::pattern;
use crate::figures::{differ, Difference, Figures};
use crate::importing::same_events;

/// Looks up a box. Gives the number of the answer.
pub fn check_box(
    board: &[u8],
    house: &[u8],
    section: u8,
    controller: u8,
) -> Result<u8, Difference> {
    let found = look_up(board, house, section, controller);
    let packed = boundary::sheet_box(board, house, section, controller);
    if packed == packed_box(&found) {
        same_in_rust(board, house, section, controller, &found)?;
        return Ok(found.number);
    }
    let take_apart = |packed: u64| {
        let (number, sheet, offset) = (packed % 256, packed / 256 % 256, packed / 65536);
        format!("number {number}, sheet {sheet}, offset {offset}")
    };
    differ(format!(
        "section {section}, controller {controller}, house {}: another box\n  model:   {}\n  \
         library: {}",
        hex(house),
        take_apart(packed_box(&found)),
        take_apart(packed)
    ))
}

/// The number, then the sheet (1 board, 2 house), then the offset of the box. A refusal hands back
/// no byte of either sheet, so it is its number alone.
fn packed_box(found: &Found) -> u64 {
    let sheet = match found.sheet {
        _ if found.number != 0 => return u64::from(found.number),
        Sheet::Board => 1,
        Sheet::House => 2,
    };
    256 * sheet + 65536 * found.offset as u64
}

/// The safe crate says the same in its own types, and its value is that of the part. It has no
/// names for a section or a controller that there is not.
fn same_in_rust(
    board: &[u8],
    house: &[u8],
    section: u8,
    controller: u8,
    found: &Found,
) -> Result<(), Difference> {
    let (Some(section), Some(controller)) = (Section::of(section), Master::of(controller)) else {
        return Ok(());
    };
    let said = gunwaleish::sheet_box(board, house, section, controller);
    let same = match said {
        Err(refusal) => refusal.number() == found.number && found.part.is_empty(),
        Ok(said) => {
            let sheet = match said.sheet {
                gunwaleish::Sheet::Board => Sheet::Board,
                gunwaleish::Sheet::House => Sheet::House,
            };
            (sheet, said.offset) == (found.sheet, found.offset) && found.part == [1, said.value]
        }
    };
    match same {
        true => Ok(()),
        false => differ(format!("the Rust crate says {said:?}, the model {found:?}")),
    }
}

/// Has the twelve events written into a buffer of this room. Gives the number of the answer.
pub fn check_sheet_events(board: &[u8], house: &[u8], room: usize) -> Result<u8, Difference> {
    let mut expected = pattern(room);
    let ordered = sheet_events(board, house, &mut expected);
    let mut events = pattern(room);
    let packed = boundary::sheet_events(board, house, &mut events);
    same_events(ordered.events, &expected, &events)?;
    if packed != u64::from(ordered.number) + 256 * ordered.events as u64 {
        return differ(format!(
            "house {}, room {room}: reports differ\n  model:   number {}, {} events\n  library: \
             number {}, {} events",
            hex(house),
            ordered.number,
            ordered.events,
            packed % 256,
            packed / 256
        ));
    }
    // The crate's own buffer has room, so that it never meets 9.
    let said = gunwaleish::sheet_events(board, house).map(|events| events.map(Into::into).to_vec());
    if said.map_err(|refusal| refusal.number()) != events_of_sheets(board, house) {
        return differ("the Rust crate gives other events or another number");
    }
    Ok(ordered.number)
}

/// Random calls with sheets: good pairs, complete ones and damaged ones.
pub fn sheet_calls(rng: &mut Rng, figures: &mut Figures) {
    for _ in 0..12 {
        let ticked = rng.pick(&[20, 50, 50, 90]);
        let mut pair = good_pair(rng, ticked);
        look_up_some(rng, &pair, figures);
        for sheet in &mut pair {
            let good = sheet.clone();
            while rng.percent(50) {
                damage_sheet(rng, sheet);
            }
            figures.damage("sheets", &good, sheet);
        }
        look_up_some(rng, &pair, figures);
        let [board, house] = complete_pair(rng);
        for room in [0, 47, 48, 48 + rng.below(9) as usize] {
            figures.sheet_events(&board, &house, room);
        }
    }
}

fn look_up_some(rng: &mut Rng, [board, house]: &[Vec<u8>; 2], figures: &mut Figures) {
    for _ in 0..4 {
        figures.look_up(board, house, rng.below(3) as u8, rng.below(2) as u8);
    }
    let any = rng.byte();
    figures.look_up(board, house, rng.pick(&[0, 3, any]), rng.pick(&[0, 1, 2, any]));
    figures.sheet_events(board, house, rng.pick(&[0, 47, 48, 60]));
}

/// A sheet that ticks every box, and one that ticks none.
const FULL: [u8; SHEET_LENGTH] = [2, 1, 50, 1, 0, 2, 1, 0, 1, 1, 2, 1, 1, 1, 0];
const OPEN: [u8; SHEET_LENGTH] = [2, 0, 0, 0, 0, 2, 0, 0, 0, 0, 2, 0, 0, 0, 0];

/// Every byte in every place of either sheet, beside a full sheet and an open one; every length; and
/// every section with every controller.
pub fn sheets_one_by_one(figures: &mut Figures) {
    for (one, other) in [(FULL, OPEN), (FULL, FULL), (OPEN, FULL), (OPEN, OPEN)] {
        for at in 0..SHEET_LENGTH {
            for value in 0..=255 {
                let mut bytes = one;
                bytes[at] = value;
                figures.damage("sheets", &one, &bytes);
                look_up_all(&bytes, &other, figures);
                look_up_all(&other, &bytes, figures);
            }
        }
        for length in 0..=SHEET_LENGTH {
            look_up_all(&one[..length], &other, figures);
            look_up_all(&other, &one[..length], figures);
        }
    }
    for section in 0..=255 {
        (0..=255).for_each(|controller| figures.look_up(&FULL, &OPEN, section, controller));
    }
}

/// Every two of these: a good sheet, and sheets that are too short, have a wrong count, a wrong box
/// or bytes after the end, one or more of these at a time.
pub fn sheets_side_by_side(figures: &mut Figures) {
    let mut sheets = vec![];
    for damages in 0..16 {
        for good in [FULL, OPEN] {
            let mut sheet = good.to_vec();
            if damages & 1 != 0 {
                sheet[10] = 3;
            }
            if damages & 2 != 0 {
                sheet[1..3].copy_from_slice(&[0, 9]);
            }
            if damages & 4 != 0 {
                sheet.push(0);
            }
            if damages & 8 != 0 {
                sheet.truncate(14);
            }
            sheets.push(sheet);
        }
    }
    for board in &sheets {
        for house in &sheets {
            look_up_all(board, house, figures);
            figures.look_up(board, house, IDLE + 1, 0);
            figures.look_up(board, house, 0, 2);
            figures.sheet_events(board, house, 47);
        }
    }
}

/// Every box there is, and the events.
fn look_up_all(board: &[u8], house: &[u8], figures: &mut Figures) {
    for section in 0..=IDLE {
        (0..2).for_each(|controller| figures.look_up(board, house, section, controller));
    }
    figures.sheet_events(board, house, 50);
}

impl Figures {
    /// Looks up a box on both sides and counts it.
    pub fn look_up(&mut self, board: &[u8], house: &[u8], section: u8, controller: u8) {
        match check_box(board, house, section, controller) {
            Ok(number) => {
                self.answered("look up", number);
                self.sights.see_box(board, house, section, controller);
            }
            Err(difference) => self.tell("board", board, &difference),
        }
    }

    /// Has the twelve events written on both sides and counts it.
    pub fn sheet_events(&mut self, board: &[u8], house: &[u8], room: usize) {
        match check_sheet_events(board, house, room) {
            Ok(number) => {
                self.answered("sheet events", number);
                self.sights.see_sheet_events(board, house);
            }
            Err(difference) => self.tell("board", board, &difference),
        }
    }
}
