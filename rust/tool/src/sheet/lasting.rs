//! The boxes that do not last: priority and idle timer live in CONTR, and the next byte there takes
//! their place.

use gunwaleish::{Master, Section};

use super::Pair;

/// The CONTR byte that asks for the bus and connects: LOCK_REQ and BUS_CONNECT.
const CONNECTS: u8 = 0x05;

/// The boxes that live in CONTR, with the bits of it that they set.
const IN_CONTR: [(Section, u8); 2] = [(Section::Priority, 0x80), (Section::Idle, 0x20)];

/// A line for each controller with such a box ticked 1, and one before them; nothing if there is none.
pub fn told(pair: &Pair) -> String {
    let lines: Vec<String> =
        Master::BOTH.into_iter().filter_map(|controller| kept_by(pair, controller)).collect();
    if lines.is_empty() {
        return String::new();
    }
    format!(
        "These boxes live in CONTR, and the next CONTR byte takes their place. The start connects nobody, \
         so the byte with which a controller connects has to keep them:\n{}\n",
        lines.join("\n")
    )
}

/// Which CONTR byte keeps the boxes of a controller when it connects.
fn kept_by(pair: &Pair, controller: Master) -> Option<String> {
    let on = |section| pair.value(section, controller) == Some(1);
    let boxes = IN_CONTR.into_iter().filter(|&(section, _)| on(section));
    let (sections, bits): (Vec<&str>, Vec<u8>) =
        boxes.map(|(section, bit)| (section.name(), bit)).unzip();
    let (kept, cleared) = match sections.len() {
        0 => return None,
        1 => ("it", "it"),
        _ => ("both", "them"),
    };
    let byte = CONNECTS + bits.iter().sum::<u8>();
    Some(format!(
        "{}, controller {controller}: connect with {byte:02X}h, which keeps {kept}; {CONNECTS:02X}h \
         clears {cleared}.",
        sections.join(" and ")
    ))
}
