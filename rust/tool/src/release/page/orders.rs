//! All orders of the start-up scripts: how they end, and the worst of them drawn.

use gunwaleish::Refusal;

use super::figure::figure;
use super::html::{paragraph, section, Cell, Table};
use super::statements;
use crate::release::{Examined, Orders, Rank, Reason};
use crate::startup::{words, Ending, Group};
use crate::story::follow;

pub fn written(examined: &Examined) -> String {
    let body = match (&examined.bundle.scripts, &examined.orders) {
        (None, _) => paragraph("There are no start-up scripts."),
        (Some(_), None) => paragraph("The start-up scripts cannot be tried; the reasons say why."),
        (Some(_), Some(orders)) => all(examined, orders),
    };
    section("orders", "The start-up scripts in all orders", &body)
}

fn all(examined: &Examined, orders: &Orders) -> String {
    let picture = worst(examined, orders)
        .unwrap_or_else(|refusal| paragraph(&format!("The order cannot be drawn: {refusal}.")));
    let proofs = [&statements::ORDERS_OF_ANY_TWO, &statements::STARTS_IN_ANY_ORDER];
    table(orders) + &picture + &statements::listed(&proofs)
}

fn table(orders: &Orders) -> String {
    let mut table =
        Table::new("orders", &["How it ends", "In how many orders", "The first such order"]);
    let number = orders.endings.len();
    for group in &orders.groups {
        let why: String = group.why.iter().map(|why| format!("; {why}")).collect();
        let ending = words::ending(group) + &why;
        let look = if group.first.is_stuck() { "wrong" } else { "" };
        table.row(
            Cell::words(&ending),
            &[
                Cell::words(&format!("{} of {number}", group.count)).look(look),
                Cell::words(&format!("{}, order {}", group.first.pattern, group.first.number)),
            ],
        );
    }
    table.finish(&format!(
        "All orders that keep each script's own order, each on a {} fresh from power-up. In a pattern a 0 is the next event of \
         controller 0's script, a 1 the next one of controller 1's.",
        orders.scripts.part
    ))
}

/// The order that a reason is about, or the first.
fn worst(examined: &Examined, orders: &Orders) -> Result<String, Refusal> {
    let Some(ending) = orders.endings.get(orders.worst) else {
        return Ok(String::new());
    };
    let story = follow(&orders.scripts.trace(&ending.pattern)?)?;
    Ok(figure(&story, &caption(examined, orders, ending)))
}

fn caption(examined: &Examined, orders: &Orders, ending: &Ending) -> String {
    let like = |group: &&Group| group.has(ending);
    let how = orders.groups.iter().find(like).map_or(String::new(), words::ending);
    let refused = match ending.refused {
        0 => "",
        1 => " One event is refused.",
        _ => " Some events are refused.",
    };
    let not_as_ordered = |reason: &Reason| reason.rank == Rank::NotAsOrdered;
    let is_worse = ending.is_stuck() || ending.refused > 0;
    let which = match is_worse || examined.reasons.iter().any(not_as_ordered) {
        true => "The worst order",
        false => "The first order",
    };
    format!(
        "{which}: {}, {} of {}. At its end {how}.{refused}",
        ending.pattern,
        ending.number,
        orders.endings.len()
    )
}
