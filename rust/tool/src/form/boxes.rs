//! The six boxes of one sheet, from its bytes and to them.

use gunwaleish::{Refusal, SHEET_LENGTH};

use crate::sheet::{faults, BoxName, Pair, OPEN};

/// What the six boxes of one sheet have, in the order in which a sheet has them; `None` is empty.
pub type Boxes = [Option<u8>; 6];

/// The sheet with these boxes.
pub fn sheet_of(boxes: Boxes) -> [u8; SHEET_LENGTH] {
    let mut sheet = OPEN;
    for (name, value) in BoxName::all().zip(boxes) {
        if let Some(value) = value {
            let tick = faults::place(name);
            sheet[tick] = 1;
            sheet[tick + 1] = value;
        }
    }
    sheet
}

/// The boxes of a sheet. The library reads it, beside one that ticks nothing.
pub fn boxes_of(sheet: &[u8]) -> Result<Boxes, Refusal> {
    let pair = Pair::read(sheet, &OPEN)?;
    let mut boxes = Boxes::default();
    for (value, entry) in boxes.iter_mut().zip(&pair.entries) {
        *value = entry.found.map(|found| found.value);
    }
    Ok(boxes)
}
