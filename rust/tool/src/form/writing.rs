//! The text form, written out, with what can be filled in.

use gunwaleish::{Master, Section};

use super::boxes::Boxes;
use super::values::{written, WITHOUT_LIMIT};
use crate::sheet::words::idle_limits;
use crate::sheet::BoxName;

const HEAD: &str = "\
# One order sheet as text; gunwaleish fill makes the same sheet of it. No pair is judged here: gunwaleish sheet BOARD HOUSE does that.
# Each box has its line. empty: nothing is ordered there, and it is left to the other sheet.
";

/// The reserves that have an end, in ms.
pub const RESERVES: &str = "1 to 255";

/// The text of a sheet. Reading it gives the same boxes again.
///
/// The comments are the same for every sheet, so that none of them is wrong once a value is changed by
/// hand.
pub fn write(boxes: Boxes) -> String {
    let mut text = HEAD.to_string();
    for (name, value) in BoxName::all().zip(boxes) {
        if name.controller == Master::Zero {
            text.push_str(&format!("\n# {}\n", meaning(name.section)));
        }
        text.push_str(&format!("{name}: {}\n", written(name.section, value)));
    }
    text
}

/// What the values of a section mean.
fn meaning(section: Section) -> String {
    let said = choices(section).map(|(value, says)| format!("{value}: {says}."));
    said.join(" ")
}

/// The two values, or ranges of values, of a section's boxes, and what each means.
pub fn choices(section: Section) -> [(&'static str, String); 2] {
    let said = |zero: &str, one: &str| [("0", zero.to_string()), ("1", one.to_string())];
    match section {
        Section::Reserve => [
            (RESERVES, "held for so many ticks of 1 ms, then until the bus is idle".to_string()),
            (WITHOUT_LIMIT, "held until the controller lets go".to_string()),
        ],
        Section::Priority => said("it asks without priority", "it asks with priority"),
        Section::Idle => {
            let on = "on; an idle bus then ends a grant without limit too";
            said("off", &format!("{on}, {}", idle_limits()))
        }
    }
}
