//! The traces of the bench, and the places of the shelf, by their proved totals; and those that wait longest,
//! drawn.

use gunwaleish::{Master, Totals};

use super::figure::figure;
use super::html::{code, paragraph, section, Cell, Table};
use super::statements;
use crate::release::bench::promised;
use crate::release::{Bench, Examined};
use crate::share::words::per_cent;
use crate::story::follow;
use crate::words::{count, ticks};

pub fn written(examined: &Examined) -> String {
    let body = match examined.bench.is_empty() {
        true => paragraph("There are no traces of the bench, and no shelf."),
        false => {
            let (traces, places): (Vec<_>, Vec<_>) =
                examined.bench.iter().partition(|bench| bench.spot.is_none());
            shares(&traces)
                + &table(examined)
                + &pictures(&traces)
                + &pictures(&places)
                + &statements::listed(&[&statements::LONGEST_WAIT_UNHELD])
        }
    };
    section("bench", "The bench", &body)
}

/// How the bus was shared over all traces. The totals are joined by the library.
fn shares(traces: &[&Bench]) -> String {
    let mut totals = Totals::new();
    for one in traces.iter().filter_map(|bench| bench.totals.as_ref().ok()) {
        if totals.join(one).is_err() {
            return paragraph("There are more traces than a bus share is counted over.");
        }
    }
    if totals.traces() == 0 {
        return String::new();
    }
    let part = |part| Cell::words(&format!("{part}, {}", per_cent(part, totals.ticks())));
    let mut table =
        Table::new("shares", &["Over all traces, in ticks", "Owned", "Connected", "Waited"]);
    for m in Master::BOTH {
        let parts = [totals.owned(m), totals.connected(m), totals.waited(m)].map(part);
        table.row(Cell::words(&format!("Controller {m}")), &parts);
    }
    let none = || Cell::words("");
    table.row(Cell::words("Nobody"), &[part(totals.unowned()), none(), none()]);
    let (traces, ticks) = (totals.traces() as usize, totals.ticks() as usize);
    let over = format!("{} and {}", count(traces, "trace"), count(ticks, "tick"));
    table.finish(&format!("How the bus was shared, over {over}."))
}

fn table(examined: &Examined) -> String {
    let longest = Master::BOTH.map(|m| {
        format!("Longest wait of controller {m}, in ticks; promised: {}", most(examined, m))
    });
    let heads = ["Trace, or script and place", "Part", "Ticks", &longest[0], &longest[1]];
    let mut table = Table::new("bench", &heads);
    for bench in &examined.bench {
        table.row(Cell::html(code(&bench.name())), &cells(bench));
    }
    table.finish(
        "Each trace from power-up, and what the script of a shelf does at each place. A longest wait is held against what the \
         sheets promise that controller.",
    )
}

/// What the sheets promise a controller behind a live one.
fn most(examined: &Examined, controller: Master) -> String {
    let pair = examined.pair.as_ref().ok();
    let most = pair.and_then(|pair| promised(pair, controller));
    most.map_or("nothing".to_string(), |most| format!("at most {most}"))
}

fn cells(bench: &Bench) -> Vec<Cell> {
    let part = bench.part.map_or("none".to_string(), |part| part.to_string());
    match &bench.totals {
        Err(refusal) => vec![
            Cell::words(&part),
            Cell::words("none"),
            Cell::words(&refusal.to_string()).look("wrong"),
            Cell::words("refused").look("wrong"),
        ],
        Ok(totals) => {
            let mut cells = vec![Cell::words(&part), Cell::words(&totals.ticks().to_string())];
            cells.extend(Master::BOTH.map(|m| longest(bench, totals, m)));
            cells
        }
    }
}

fn longest(bench: &Bench, totals: &Totals, controller: Master) -> Cell {
    let longest = totals.longest(controller);
    match bench.longer[controller as usize] {
        true => Cell::words(&format!("{longest}, longer than promised")).look("wrong"),
        false => Cell::words(&longest.to_string()),
    }
}

/// For each controller the first that waits longest, drawn once if it is the same.
fn pictures(bench: &[&Bench]) -> String {
    let [first, second] = Master::BOTH.map(|controller| waits_longest(bench, controller));
    match (first, second) {
        (None, None) => String::new(),
        (Some(one), Some(two)) if one == two => picture(bench[one], &Master::BOTH),
        _ => {
            let drawn = |place: Option<usize>, controller| {
                place.map_or(String::new(), |place| picture(bench[place], &[controller]))
            };
            drawn(first, Master::Zero) + &drawn(second, Master::One)
        }
    }
}

/// Where a controller waits longest, if it waits a tick at all.
fn waits_longest(bench: &[&Bench], controller: Master) -> Option<usize> {
    let longest = |bench: &&Bench| bench.totals.map_or(0, |totals| totals.longest(controller));
    let most = bench.iter().map(longest).max().filter(|&most| most > 0)?;
    bench.iter().position(|bench| longest(bench) == most)
}

fn picture(bench: &Bench, who: &[Master]) -> String {
    let (Ok(story), Ok(totals)) = (follow(&bench.trace), &bench.totals) else {
        return String::new();
    };
    let waits: Vec<String> = who
        .iter()
        .map(|&m| format!("controller {m} waits longest, {}", ticks(totals.longest(m) as usize)))
        .collect();
    figure(&story, &format!("{}, a {}: here {}.", bench.name(), story.part, waits.join(", and ")))
}
