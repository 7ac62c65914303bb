//! A run over a shelf in words: how each device stands at the end, what reached nobody or was refused,
//! and then what happened at each place.

use gunwaleish::{Answer, Ground, Master};

use super::{Answered, At, Shelved, Slot};
use crate::commands::explain;
use crate::script::named::{Name, Named};
use crate::story::Story;
use crate::words::{count, outcome, part};

/// The whole text. The names are those of the shelf file and of the script.
pub fn told(names: [&str; 2], shelved: &Shelved) -> String {
    let devices = count(shelved.slots.len(), "device");
    let events = count(shelved.answered.len(), "event");
    let mut text = format!("{}: {devices}; {}: {events}\n\n", names[0], names[1]);
    for ((place, slot, story), shown) in places(shelved).zip(&shelved.shown) {
        text.push_str(&format!("{}: {}\n", heading(place, slot), at_the_end(story, shown)));
    }
    text.push_str(&reached_nobody(shelved));
    text.push_str(&refused_by_devices(shelved));
    for (place, slot, story) in places(shelved) {
        text.push_str(&format!(
            "\n{}: {} of {events} reach it\n{}\n\n{}",
            heading(place, slot),
            story.steps.len(),
            part(slot.part),
            explain::body(story)
        ));
    }
    text
}

fn places(shelved: &Shelved) -> impl Iterator<Item = (usize, &Slot, &Story)> {
    let places = shelved.slots.iter().zip(&shelved.stories).enumerate();
    places.map(|(place, (slot, story))| (place, slot, story))
}

fn heading(place: usize, slot: &Slot) -> String {
    format!("place {place}, address {:02X}h, {}", slot.address, slot.part)
}

/// How a device stands at the end.
fn at_the_end(story: &Story, shown: &Answer) -> String {
    let (waits, hung) =
        story.steps.last().map_or(([false; 2], false), |step| (step.scene.waits, step.scene.hung));
    stands(shown, waits, hung)
}

/// How a device stands: whose the bus is, who waits, and whether it is hung.
pub fn stands(shown: &Answer, waits: [bool; 2], hung: bool) -> String {
    let owner = match (shown.owner, shown.connected) {
        (None, _) => "nobody owns the bus".to_string(),
        (Some(m), Some(_)) => format!("controller {m} owns the bus and is connected"),
        (Some(m), None) => format!("controller {m} owns the bus"),
    };
    let mut said = vec![owner];
    let waits = Master::BOTH.into_iter().filter(|m| waits[*m as usize]);
    said.extend(waits.map(|m| format!("controller {m} waits")));
    said.extend(hung.then(|| "the bus is hung".to_string()));
    said.join("; ")
}

/// The events that the shelf refused, a line each.
fn reached_nobody(shelved: &Shelved) -> String {
    let lines: Vec<String> = shelved
        .refused()
        .map(|(number, named)| {
            format!("    event {number}, line {}, {named}: {}\n", named.line, why(named))
        })
        .collect();
    match lines.is_empty() {
        true => String::new(),
        false => format!("\nRefused by the shelf, and changing nothing:\n{}", lines.concat()),
    }
}

/// The events that devices refused, a line each.
fn refused_by_devices(shelved: &Shelved) -> String {
    let line = |(number, named, at): (usize, &Named, Vec<At>)| {
        format!("    event {number}, line {}, {named}: {}\n", named.line, why_at(shelved, &at))
    };
    let lines: String = shelved.refused_by_devices().map(line).collect();
    match lines.is_empty() {
        true => lines,
        false => {
            format!("\nRefused by the device that it reaches, and changing nothing there:\n{lines}")
        }
    }
}

/// Why devices refuse an event, and where.
pub fn why_at(shelved: &Shelved, at: &[At]) -> String {
    let alike = at.chunk_by(|one, next| one.1 == next.1);
    let all = shelved.slots.len();
    let said = alike.filter_map(|places| {
        let places_of = |(place, _): &At| {
            let address = shelved.slots.get(*place).map_or(0, |slot| slot.address);
            format!("place {place}, address {address:02X}h")
        };
        let (_, refused) = places.first()?;
        let there = match places {
            [one] => places_of(one),
            many if many.len() == all => format!("all {all} places"),
            many => many.iter().map(places_of).collect::<Vec<_>>().join(" and "),
        };
        Some(format!("{} (at {there})", outcome(*refused)))
    });
    said.collect::<Vec<_>>().join("; ")
}

/// Why the shelf refuses an event.
pub fn why(named: &Named) -> String {
    match named.name {
        Name::Address(address) => format!("refusal 18: no device has address {address:02X}h"),
        Name::Place(place) => format!("refusal 18: the shelf has no place {place}"),
        Name::All => "refusal 18: it is not in the row".to_string(),
    }
}

/// Each event on a line: its answer as a listing has it, and then the event as a script has it.
pub fn listed(shelved: &Shelved) -> String {
    let line = |(named, answer): &Answered| match answer {
        Ok(answer) => format!("{}  {named}\n", digits(answer)),
        Err(refusal) => format!("{:02X}000000  {named}\n", refusal.number()),
    };
    shelved.answered.iter().map(line).collect()
}

/// The four bytes of an answer, in hex.
pub fn digits(answer: &Answer) -> String {
    let who = |master: Option<Master>| master.map_or(0, |m| m.number() + 1);
    let bits =
        |flags: &[bool]| flags.iter().rev().fold(0, |byte, &flag| byte << 1 | u8::from(flag));
    let ground = answer.ground.map_or(0, Ground::number);
    let initialising = u8::from(answer.initialising);
    let bus = who(answer.owner) | who(answer.connected) << 2 | initialising << 4 | ground << 5;
    let lines = bits(&[answer.int0, answer.int1, answer.scl, answer.sda]);
    let outcome = answer.outcome.number();
    format!("{outcome:02X}{:02X}{bus:02X}{lines:02X}", answer.byte_read)
}
