//! A run over a shelf for other programs: how each place stands at the end, or each event.

use gunwaleish::{Answer, Master, Refusal};

use super::words::why;
use super::{Answered, Shelved, Slot};
use crate::json::Value;
use crate::script::line_of;
use crate::script::named::Name;
use crate::story::Story;
use crate::table::{Columns, Form};

/// A place at the end.
pub const PLACES: Columns = &[
    "place",
    "address",
    "part",
    "events",
    "refused_events",
    "ticks",
    "owner",
    "connected",
    "waits0",
    "waits1",
    "hung",
];

/// An event, with its answer.
pub const EVENTS: Columns = &[
    "event",
    "line",
    "for",
    "what",
    "outcome",
    "why",
    "byte_read",
    "owner",
    "connected",
    "initialising",
    "ground",
    "int0",
    "int1",
    "scl",
    "sda",
];

/// A row a place.
pub fn places(shelved: &Shelved, form: Form) -> String {
    let each = shelved.slots.iter().zip(&shelved.stories).zip(&shelved.shown).enumerate();
    let rows = each.map(|(number, ((slot, story), shown))| place(number, slot, story, shown));
    form.table(PLACES, rows)
}

fn place(number: usize, slot: &Slot, story: &Story, shown: &Answer) -> Vec<Value> {
    let refused = story.steps.iter().filter(|step| step.answer.outcome.is_refused()).count();
    let last = story.steps.last().map(|step| step.scene);
    let waits = last.map_or([false; 2], |scene| scene.waits);
    vec![
        number.into(),
        format!("{:02X}", slot.address).into(),
        slot.part.name().into(),
        story.steps.len().into(),
        refused.into(),
        story.ticks().into(),
        number_of(shown.owner),
        number_of(shown.connected),
        waits[0].into(),
        waits[1].into(),
        last.is_some_and(|scene| scene.hung).into(),
    ]
}

/// A row an event. What the shelf refuses has no answer.
pub fn events(shelved: &Shelved, form: Form) -> String {
    form.table(EVENTS, shelved.answered.iter().zip(1..).map(event))
}

fn event(((named, answer), number): (&Answered, usize)) -> Vec<Value> {
    let name = match named.name {
        Name::Address(address) => format!("at {address:02X}"),
        Name::Place(place) => format!("place {place}"),
        Name::All => "all".to_string(),
    };
    let said = match answer {
        Ok(answer) => answer.outcome.to_string(),
        Err(_) => why(named),
    };
    let outcome = answer.map_or_else(Refusal::number, |answer| answer.outcome.number());
    let mut row: Vec<Value> = vec![
        number.into(),
        named.line.into(),
        name.into(),
        line_of(named.event, 1).into(),
        outcome.into(),
        said.into(),
    ];
    row.extend(answer.map_or_else(|_| [const { Value::Null }; 9], answered));
    row
}

fn answered(answer: Answer) -> [Value; 9] {
    [
        answer.byte_read.into(),
        number_of(answer.owner),
        number_of(answer.connected),
        answer.initialising.into(),
        answer.ground.map(|ground| ground.to_string()).into(),
        answer.int0.into(),
        answer.int1.into(),
        answer.scl.into(),
        answer.sda.into(),
    ]
}

/// A controller by its number, or null.
fn number_of(master: Option<Master>) -> Value {
    master.map(Master::number).into()
}
