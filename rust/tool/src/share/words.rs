//! The report as text: the two lines, or a table.

use gunwaleish::{Master, Refusal, Totals};

use super::kept::REFUSALS;
use super::Counted;
use crate::words::count;

/// The refusals that a trace has here, by their numbers as `REFUSALS` has them.
const WHY: [Refusal; 6] = [
    Refusal::NoSuchPart,
    Refusal::TraceCut,
    Refusal::TooManyEvents,
    Refusal::BytesAfterEnd,
    Refusal::NoSuchStrapping,
    Refusal::WrongCount,
];

/// A line a controller: number, owned, connected, waited; and `R6` past the most traces.
pub fn lines(counted: &Counted) -> String {
    let totals = &counted.totals;
    let line = |m: Master| {
        format!("{m} {} {} {}\n", totals.owned(m), totals.connected(m), totals.waited(m))
    };
    let end = if counted.past > 0 { "R6\n" } else { "" };
    Master::BOTH.map(line).concat() + end
}

/// The same for people, with shares of all ticks. `name` has the name of a place.
pub fn table(counted: &Counted, name: &dyn Fn(usize) -> String) -> String {
    let totals = &counted.totals;
    let refused: u64 = REFUSALS.map(|number| totals.refused(number)).iter().sum();
    let mut text = format!(
        "{}: {} taken, {refused} refused; {}\n\n{:12}  {:>18}  {:>18}  {:>18}  longest wait\n",
        count(totals.traces() as usize, "trace"),
        totals.traces() - refused,
        count(totals.ticks() as usize, "tick"),
        "",
        "owned",
        "connected",
        "waited"
    );
    for m in Master::BOTH {
        let shares = [totals.owned(m), totals.connected(m), totals.waited(m)];
        let [owned, connected, waited] = shares.map(|part| share(part, totals));
        let longest = totals.longest(m);
        let place =
            counted.longest_in(m).map_or(String::new(), |place| format!("  in {}", name(place)));
        text.push_str(&format!(
            "controller {m}  {owned}  {connected}  {waited}  {longest:>12}{place}\n"
        ));
    }
    text.push_str(&format!("{:12}  {}\n", "nobody", share(totals.unowned(), totals)));
    let refused = firsts(counted).into_iter().map(|(refusal, number, first)| {
        let traces = format!("{refusal}: {}", count(number as usize, "trace"));
        match (first, number) {
            (None, _) => traces,
            (Some(place), 1) => format!("{traces}, {}", name(place)),
            (Some(place), _) => format!("{traces}, the first {}", name(place)),
        }
    });
    let below: Vec<String> = refused.chain(past(counted)).collect();
    match below.is_empty() {
        true => text,
        false => format!("{text}\n{}\n", below.join("\n")),
    }
}

/// Ticks, and their part of all ticks in per cent.
fn share(part: u64, totals: &Totals) -> String {
    format!("{part:>9}  {:>7}", per_cent(part, totals.ticks()))
}

/// To the nearest tenth. Of no ticks there is no share.
pub fn per_cent(part: u64, all: u64) -> String {
    let (part, all) = (u128::from(part), u128::from(all));
    match (part * 2000 + all).checked_div(2 * all) {
        None => "-".to_string(),
        Some(tenths) => format!("{}.{} %", tenths / 10, tenths % 10),
    }
}

/// The refusals that there were, each with the number of traces and, if it is known, the place of the
/// first one.
fn firsts(counted: &Counted) -> Vec<(Refusal, u64, Option<usize>)> {
    let first = |refusal: Refusal| {
        let number = counted.totals.refused(refusal.number());
        let found = counted.refused.iter().find(|(_, other)| *other == refusal);
        (number > 0).then_some((refusal, number, found.map(|&(place, _)| place)))
    };
    WHY.into_iter().filter_map(first).collect()
}

/// What is said of refused traces beside the two lines, which do not show them: why the first of each
/// number is, and how many more there are.
pub fn refused(counted: &Counted) -> Vec<String> {
    let line = |(refusal, number, _): (Refusal, u64, Option<usize>)| {
        let more = match number.saturating_sub(1) {
            0 => String::new(),
            others => format!(" (and {} more)", count(others as usize, "trace")),
        };
        match counted.reasons.get(&refusal.number()) {
            Some((_, why)) => format!("{why}{more}"),
            None => format!("{refusal}: {}", count(number as usize, "trace")),
        }
    };
    firsts(counted).into_iter().map(line).collect()
}

/// That there was no trace, or refused ones alone.
pub fn none_taken(counted: &Counted) -> Option<String> {
    let why = match counted.totals.traces() {
        0 => "there is no trace".to_string(),
        1 => "no figures: the one trace is refused".to_string(),
        all => format!("no figures: all {all} traces are refused"),
    };
    (!counted.has_taken()).then_some(why)
}

/// That there were too many traces.
pub fn past(counted: &Counted) -> Option<String> {
    let verb = if counted.past == 1 { "is" } else { "are" };
    let not = format!("{} {verb} not counted", count(counted.past, "trace"));
    (counted.past > 0).then(|| format!("refusal 6: there are more than 65,535 traces, and {not}"))
}
