//! Shelf files: the devices of a shelf, one a line in the order of their places.
//!
//! | line | device |
//! |---|---|
//! | `71 PCA9641` | a PCA9641 at address 71h |
//! | `72 TPT29641` | a TPT29641 at address 72h |
//!
//! The address is in hex, and what stands after `#` is a comment. The part has no default.

use gunwaleish::{Refusal, MOST_RECORDS};

use super::Slot;
use crate::script::{each_line, Unread, Words};

/// The devices that stand in a shelf file, and its last line.
pub fn read_shelf(text: &[u8]) -> Result<(Vec<Slot>, usize), Unread> {
    let mut slots = vec![];
    let last = each_line(text, |words| take_line(words, &mut slots))?;
    Ok((slots, last))
}

fn take_line(words: &mut Words, slots: &mut Vec<Slot>) -> Result<(), Unread> {
    if words.is_empty() {
        return Ok(());
    }
    let (address, part) = (words.byte()?, words.part()?);
    slots.push(Slot { address, part, line: words.line });
    words.end()
}

/// Why the shelf is refused, with the line of its file.
pub fn refused(slots: &[Slot], last: usize, refusal: Refusal) -> String {
    match seen_at(slots, last, refusal) {
        (Some(line), why) => format!("line {line}: {why}"),
        (None, why) => why,
    }
}

/// The line that a refusal of the shelf is about, and why it is refused.
pub fn seen_at(slots: &[Slot], last: usize, refusal: Refusal) -> (Option<usize>, String) {
    let (line, why) = match refusal {
        Refusal::EmptyRow => (last, "the shelf has no device".to_string()),
        Refusal::LongRow => {
            let line = slots.get(MOST_RECORDS).map_or(last, |slot| slot.line);
            (
                line,
                format!("the shelf has {} devices, and {MOST_RECORDS} are the most", slots.len()),
            )
        }
        Refusal::EqualAddresses => {
            equal(slots).unwrap_or((last, "two devices have the same address".to_string()))
        }
        _ => return (None, refusal.to_string()),
    };
    (Some(line), format!("refusal {}: {why}", refusal.number()))
}

/// The first device whose address stands there before it.
fn equal(slots: &[Slot]) -> Option<(usize, String)> {
    let before = |place: usize| slots[..place].iter().find(|b| b.address == slots[place].address);
    let (place, other) = (0..slots.len()).find_map(|place| Some((place, before(place)?)))?;
    let Slot { address, line, .. } = slots[place];
    Some((line, format!("address {address:02X}h is there twice, on line {} too", other.line)))
}
