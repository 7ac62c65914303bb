//! How long a controller can wait by a pair of order sheets, on both sides.

use gunwaleish::{boundary, Master, Part};
use model::rng::Rng;
use model::sheet::{IDLE, RESERVE, SHEET_LENGTH};
use model::sheets::{complete_pair, damage_sheet, good_pair, pair_without_a_box, Pair};
use model::trace::hex;
use model::{wait_of, Wait};

use crate::figures::{differ, Difference, Figures};

/// Asks how long a controller can wait. Gives what the model said.
pub fn check_wait(
    board: &[u8],
    house: &[u8],
    controller: u8,
    kind: u8,
) -> Result<Wait, Difference> {
    let said = wait_of(board, house, controller, kind);
    // The number, and from 256 and 65536 on the grade and the ticks.
    let packed = boundary::sheet_wait(board, house, controller, kind);
    if packed == said.packed() {
        same_in_rust(board, house, controller, kind, &said)?;
        return Ok(said);
    }
    let take_apart = |packed: u64| {
        let (number, grade, ticks) = (packed % 256, packed / 256 % 256, packed / 65536);
        format!("number {number}, grade {grade}, {ticks} ticks")
    };
    differ(format!(
        "wait of controller {controller}, kind {kind}, house {}: another answer\n  model:   {}\n  \
         library: {}",
        hex(house),
        take_apart(said.packed()),
        take_apart(packed)
    ))
}

/// The typed call says the same, for a controller and a part that there are.
fn same_in_rust(
    board: &[u8],
    house: &[u8],
    controller: u8,
    kind: u8,
    said: &Wait,
) -> Result<(), Difference> {
    let (Some(master), Some(part)) = (Master::of(controller), Part::of(kind)) else {
        return Ok(());
    };
    let typed = gunwaleish::sheet_wait(board, house, master, part);
    let found = match typed {
        Err(refusal) => (refusal.number(), 0, 0),
        Ok(wait) => (0, wait.grade(), u32::from(wait.ticks().unwrap_or(0))),
    };
    match found == (said.number, said.grade, said.ticks) {
        true => Ok(()),
        false => differ(format!("wait of controller {controller}, kind {kind}: typed {typed:?}")),
    }
}

/// Random questions: complete pairs, pairs that lack a box, good ones and damaged ones.
pub fn wait_calls(rng: &mut Rng, figures: &mut Figures) {
    for _ in 0..8 {
        let (complete, lacking) = (complete_pair(rng), pair_without_a_box(rng));
        let ticked = rng.pick(&[50, 90]);
        let mut damaged = good_pair(rng, ticked);
        for sheet in &mut damaged {
            let good = sheet.clone();
            while rng.percent(40) {
                damage_sheet(rng, sheet);
            }
            figures.damage("sheets", &good, sheet);
        }
        [complete, lacking, damaged].iter().for_each(|pair| ask_some(rng, pair, figures));
    }
}

/// All controllers with all kinds that there are, and some that there are not.
fn ask_some(rng: &mut Rng, [board, house]: &Pair, figures: &mut Figures) {
    ask_all(board, house, figures);
    let (any, other) = (rng.byte(), rng.byte());
    figures.wait(board, house, rng.pick(&[0, 1, 2, any]), rng.pick(&[2, 255, other]));
    figures.wait(board, house, rng.pick(&[2, 255, any]), rng.pick(&[0, 1, 2, other]));
}

fn ask_all(board: &[u8], house: &[u8], figures: &mut Figures) {
    for kind in [0, 1] {
        [0, 1].into_iter().for_each(|controller| figures.wait(board, house, controller, kind));
    }
}

/// A sheet that ticks every box, and one that ticks none.
const FULL: [u8; SHEET_LENGTH] = [2, 1, 50, 1, 0, 2, 1, 0, 1, 1, 2, 1, 1, 1, 0];
const OPEN: [u8; SHEET_LENGTH] = [2, 0, 0, 0, 0, 2, 0, 0, 0, 0, 2, 0, 0, 0, 0];

/// Every byte in every place of either sheet, beside a full sheet and an open one; every length, also
/// one byte too many; and every controller with every kind.
pub fn waits_one_by_one(figures: &mut Figures) {
    for (one, other) in [(FULL, OPEN), (FULL, FULL), (OPEN, FULL), (OPEN, OPEN)] {
        for at in 0..SHEET_LENGTH {
            for value in 0..=255 {
                let mut bytes = one;
                bytes[at] = value;
                ask_all(&bytes, &other, figures);
                ask_all(&other, &bytes, figures);
            }
        }
        let long = [&one[..], &[0]].concat();
        for length in 0..=long.len() {
            ask_all(&long[..length], &other, figures);
            ask_all(&other, &long[..length], figures);
            figures.wait(&long[..length], &other, 2, 2);
        }
        for controller in 0..=255 {
            (0..=255).for_each(|kind| figures.wait(&one, &other, controller, kind));
        }
    }
}

/// Every reserve of either controller with each of its idle boxes, on either sheet, while the other
/// controller's boxes are these or those.
pub fn waits_of_every_reserve(figures: &mut Figures) {
    for (reserve, idle) in (0..=255).flat_map(|reserve| [(reserve, 0), (reserve, 1)]) {
        for controller in [0, 1] {
            for (others, timer) in [(0, 0), (0, 1), (1, 0), (255, 1)] {
                let mut sheet = FULL;
                let mut set = |section: u8, of: u8, value: u8| {
                    sheet[model::sheet::offset_of(section, of) + 1] = value;
                };
                set(RESERVE, controller, reserve);
                set(IDLE, controller, idle);
                set(RESERVE, 1 - controller, others);
                set(IDLE, 1 - controller, timer);
                ask_all(&sheet, &OPEN, figures);
                ask_all(&OPEN, &sheet, figures);
            }
        }
    }
}

impl Figures {
    /// Asks for a wait on both sides and counts it.
    pub fn wait(&mut self, board: &[u8], house: &[u8], controller: u8, kind: u8) {
        match check_wait(board, house, controller, kind) {
            Ok(said) => {
                self.answered("sheet wait", said.number);
                self.sights.see_wait(board, house, controller, kind);
            }
            Err(difference) => self.tell("board", board, &difference),
        }
    }
}
