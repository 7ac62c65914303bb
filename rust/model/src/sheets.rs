//! Seeded random pairs of order sheets, good and damaged (document 02, #106), and what is seen in
//! them. The random sheets say nothing about what is right.

use crate::rng::Rng;
use crate::seen::Happenings;
use crate::sheet::*;

/// A pair of sheets, the board's first.
pub type Pair = [Vec<u8>; 2];

/// A good pair. In so many cases of a hundred a box is ticked on a sheet.
pub fn good_pair(rng: &mut Rng, ticked: u64) -> Pair {
    [good_sheet(rng, ticked), good_sheet(rng, ticked)]
}

fn good_sheet(rng: &mut Rng, ticked: u64) -> Vec<u8> {
    let mut sheet = vec![];
    for section in RESERVE..=IDLE {
        sheet.push(2);
        for _ in 0..2 {
            let any = rng.byte();
            let value = match section {
                RESERVE => rng.pick(&[0, 0, 1, 50, 255, any]),
                _ => rng.below(2) as u8,
            };
            sheet.extend(if rng.percent(ticked) { [1, value] } else { [0, 0] });
        }
    }
    sheet
}

/// A complete pair: what one sheet leaves open the other ticks.
pub fn complete_pair(rng: &mut Rng) -> Pair {
    let full = good_sheet(rng, 100);
    let mut pair = good_pair(rng, 50);
    for section in RESERVE..=IDLE {
        for controller in [0, 1] {
            let at = offset_of(section, controller);
            if pair[0][at] == 0 && pair[1][at] == 0 {
                let sheet = rng.below(2) as usize;
                pair[sheet][at..at + 2].copy_from_slice(&full[at..at + 2]);
            }
        }
    }
    pair
}

/// A pair that lacks one box, whichever it is.
pub fn pair_without_a_box(rng: &mut Rng) -> Pair {
    let mut pair = complete_pair(rng);
    let at = offset_of(rng.below(3) as u8, rng.below(2) as u8);
    pair.iter_mut().for_each(|sheet| sheet[at..at + 2].copy_from_slice(&[0, 0]));
    pair
}

/// Damages a sheet in some way. Often one of the others is wrong with it too.
pub fn damage_sheet(rng: &mut Rng, sheet: &mut Vec<u8>) {
    let length = sheet.len().max(1) as u64;
    let controller = rng.below(2) as u8;
    match rng.below(7) {
        0 => sheet.truncate(rng.below(length) as usize),
        1 => sheet.extend((0..rng.between(1, 4)).map(|_| rng.byte())),
        2 => set(sheet, 5 * rng.below(3) as usize, rng.pick(&[0, 1, 3, 255])),
        3 => set(sheet, offset_of(rng.below(3) as u8, controller), rng.between(2, 255) as u8),
        4 => {
            // A value that a reserve could have.
            let at = offset_of(rng.between(1, 2) as u8, controller);
            set(sheet, at, 1);
            set(sheet, at + 1, rng.between(2, 255) as u8);
        }
        5 => {
            let at = offset_of(rng.below(3) as u8, controller);
            set(sheet, at, 0);
            set(sheet, at + 1, rng.between(1, 255) as u8);
        }
        _ => {
            // Any byte anywhere, which may be good.
            let at = rng.below(length) as usize;
            set(sheet, at, rng.byte());
        }
    }
}

/// Sets a byte, if the sheet is so long.
fn set(sheet: &mut [u8], at: usize, value: u8) {
    if let Some(byte) = sheet.get_mut(at) {
        *byte = value;
    }
}

/// The names of all sights that random pairs of sheets have to reach.
pub const SHEET_SIGHTS: &[&str] = &[
    // Boxes.
    "box of section 0 from the board",
    "box of section 0 from the house",
    "box of section 1 from the board",
    "box of section 1 from the house",
    "box of section 2 from the board",
    "box of section 2 from the house",
    "box ticked on both sheets, with other values",
    "box ticked on neither sheet",
    "reserve of 0 on the board, more on the house",
    "reserve of 0 on the house alone",
    "no such section",
    "no such controller",
    "neither section nor controller",
    // Sheets.
    "board under 15 bytes",
    "board with a wrong count",
    "board with a tick or value out of range",
    "board with bytes after its end",
    "house under 15 bytes",
    "house with a wrong count",
    "house with a tick or value out of range",
    "house with bytes after its end",
    "both sheets refused, with other numbers",
    "wrong count and bytes after the end",
    "no such section on a refused sheet",
    // Events.
    "twelve events",
    "pair of sheets not complete",
];

impl Happenings {
    /// Looks at a lookup.
    pub fn see_box(&mut self, board: &[u8], house: &[u8], section: u8, controller: u8) {
        self.see_sheets(board, house);
        let found = look_up(board, house, section, controller);
        let refused = judge(board).is_err() || judge(house).is_err();
        self.note(refused && section > IDLE, "no such section on a refused sheet");
        if refused {
            return;
        }
        self.note(section > IDLE && controller < 2, "no such section");
        self.note(section <= IDLE && controller > 1, "no such controller");
        self.note(section > IDLE && controller > 1, "neither section nor controller");
        self.note(found.number == 14, "box ticked on neither sheet");
        if found.number != 0 {
            return;
        }
        let name = match found.sheet {
            Sheet::Board => "board",
            Sheet::House => "house",
        };
        self.note(true, &format!("box of section {section} from the {name}"));
        let at = found.offset;
        let both = board[at] == 1 && house[at] == 1;
        let differ = both && board[at + 1] != house[at + 1];
        self.note(differ, "box ticked on both sheets, with other values");
        let zero = section == RESERVE && found.part[1] == 0;
        self.note(zero && differ, "reserve of 0 on the board, more on the house");
        self.note(zero && found.sheet == Sheet::House, "reserve of 0 on the house alone");
    }

    /// Looks at a call for the events.
    pub fn see_sheet_events(&mut self, board: &[u8], house: &[u8]) {
        self.see_sheets(board, house);
        let events = events_of_sheets(board, house);
        self.note(events.is_ok(), "twelve events");
        self.note(events == Err(14), "pair of sheets not complete");
    }

    fn see_sheets(&mut self, board: &[u8], house: &[u8]) {
        for (name, sheet) in [("board", board), ("house", house)] {
            let wrong = match judge(sheet) {
                Ok(()) => continue,
                Err(5) => "under 15 bytes",
                Err(10) => "with a wrong count",
                Err(3) => "with a tick or value out of range",
                Err(_) => "with bytes after its end",
            };
            self.note(true, &format!("{name} {wrong}"));
            let long = sheet.len() > SHEET_LENGTH;
            self.note(long && judge(sheet) == Err(10), "wrong count and bytes after the end");
        }
        let (of_board, of_house) = (judge(board), judge(house));
        let both = of_board.is_err() && of_house.is_err();
        self.note(both && of_board != of_house, "both sheets refused, with other numbers");
    }
}
