//! The promised wait of each controller, with what proves it.

use gunwaleish::{Part, Wait};

use super::html::{code, paragraph, section, Cell, Table};
use super::statements::{self, Statement};
use crate::release::Examined;
use crate::sheet::{waits, Pair, Waiting};

pub fn written(examined: &Examined) -> String {
    let body = match &examined.pair {
        Ok(pair) if !pair.waits.is_empty() => promised(pair),
        Ok(_) => paragraph(
            "None: a box is empty on both sheets, so the sheets order nothing and promise nothing.",
        ) + &statements::listed(&[&statements::EMPTY_NO_EVENTS]),
        Err(_) => paragraph("None: one of the two is no order sheet."),
    };
    section("waits", "Promised waits", &body)
}

fn promised(pair: &Pair) -> String {
    let mut heads = vec!["Who waits".to_string(), "What is promised".to_string()];
    heads.extend(Part::BOTH.map(|part| format!("On a {part}")));
    heads.extend(["Grade".to_string(), "Proved by".to_string()]);
    let mut table = Table::new("waits", &heads.iter().map(String::as_str).collect::<Vec<_>>());
    for waiting in &pair.waits {
        row(&mut table, waiting);
    }
    table
        .finish("How long each controller can wait for the bus, at every handover. A tick is 1 ms.")
        + &holds(pair)
        + &statements::listed(&proofs(pair))
}

/// What the figures hold for, if there are any.
fn holds(pair: &Pair) -> String {
    if waits::are_bounded(pair) {
        return paragraph(waits::HOLDS);
    }
    String::new()
}

fn row(table: &mut Table, waiting: &Waiting) {
    let [(_, wait), _] = waiting.on;
    let look = if wait.grade() == 1 { "" } else { "wrong" };
    let figure = |(_, wait): (Part, Wait)| match wait {
        Wait::Live { ticks } => Cell::words(&format!("{ticks} ms")),
        Wait::Silent { ticks } => Cell::words(&format!("{ticks} ms, behind a silent holder alone")),
        Wait::Unbounded => Cell::words("without limit"),
    };
    let [first, second] = waiting.on.map(figure);
    let names: Vec<String> = proved_by(wait).iter().map(|statement| code(statement.name)).collect();
    table.row(
        Cell::words(&format!("Controller {}", waiting.controller)),
        &[
            Cell::words(&waits::in_words(waiting)).look(look),
            first.look(look),
            second.look(look),
            Cell::words(&wait.grade().to_string()).look(look),
            Cell::html(names.join(", ")).look("names"),
        ],
    );
}

/// What proves a wait of this grade.
pub fn proved_by(wait: Wait) -> &'static [&'static Statement] {
    match wait {
        Wait::Live { .. } => &[&statements::SHEETS_GUARANTEE, &statements::STARTS_GUARANTEE],
        Wait::Silent { .. } => &[
            &statements::RESERVE_NECESSARY,
            &statements::IDLE_BOX_KEPT,
            &statements::IDLE_BOX_DROPPED,
        ],
        Wait::Unbounded => &[&statements::RESERVE_NECESSARY],
    }
}

/// All that is named in the table, each once, and what is said of every grade.
fn proofs(pair: &Pair) -> Vec<&'static Statement> {
    let mut all = vec![&statements::WAIT_TELLS, &statements::BOUNDED_EXACTLY];
    for waiting in &pair.waits {
        for statement in proved_by(waiting.on[0].1) {
            if !all.iter().any(|known| known.name == statement.name) {
                all.push(statement);
            }
        }
    }
    all
}
