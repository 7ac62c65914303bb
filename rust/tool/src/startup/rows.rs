//! All orders of two scripts for other programs: a row an order.

use gunwaleish::{Master, Part};

use super::Ending;
use crate::json::Value;
use crate::table::{Columns, Form};

pub const COLUMNS: Columns = &[
    "order",
    "pattern",
    "part",
    "owner",
    "connected",
    "initialising",
    "ground",
    "waits0",
    "waits1",
    "nobody_owns",
    "refused_events",
];

/// A row an order, in their sequence.
pub fn rows(endings: &[Ending], part: Part, form: Form) -> String {
    form.table(COLUMNS, endings.iter().map(|ending| row(ending, part)))
}

fn row(ending: &Ending, part: Part) -> Vec<Value> {
    let number_of = |master: Option<Master>| master.map(Master::number).into();
    vec![
        ending.number.into(),
        ending.pattern.digits().into(),
        part.name().into(),
        number_of(ending.bus.owner),
        number_of(ending.bus.connected),
        ending.bus.initialising.into(),
        ending.bus.ground.map(|ground| ground.to_string()).into(),
        ending.waits[0].into(),
        ending.waits[1].into(),
        ending.is_stuck().into(),
        ending.refused.into(),
    ]
}
