//! All orders of two scripts in words.

use gunwaleish::{Master, Part};

use super::{Ending, Group, PART};
use crate::words::{capital, count};

/// A line for each group, and after them, set apart, those in which nobody owns the bus though
/// somebody asks for it.
pub fn told(endings: &[Ending], groups: &[Group]) -> String {
    let all = endings.len();
    let is_stuck = |group: &&Group| group.first.is_stuck();
    let mut text = String::new();
    for group in groups.iter().filter(|group| !is_stuck(group)) {
        text.push_str(&line(group, all));
    }
    if let Some(stuck) = stuck(endings) {
        let gap = if text.is_empty() { "" } else { "\n" };
        text.push_str(&format!("{gap}NOBODY OWNS THE BUS, though it is asked for, {stuck}:\n"));
    }
    for group in groups.iter().filter(is_stuck) {
        text.push_str(&line(group, all));
    }
    if let Some(refused) = refused(endings) {
        text.push_str(&format!("\n{}\n", capital(&refused)));
    }
    text
}

/// In how many orders an event is refused, and in which first, if there are any.
pub fn refused(endings: &[Ending]) -> Option<String> {
    let (first, some) = first_and_some(endings, |ending| ending.refused > 0)?;
    Some(format!("{some} an event is refused; first: {first}"))
}

/// In how many orders nobody owns the bus though somebody asks for it, if there are any.
pub fn stuck(endings: &[Ending]) -> Option<String> {
    first_and_some(endings, Ending::is_stuck).map(|(_, some)| some)
}

/// The pattern of the first order of which it is so, and in how many it is so, if there are any.
fn first_and_some(endings: &[Ending], so: fn(&Ending) -> bool) -> Option<(String, String)> {
    let first = endings.iter().find(|ending| so(ending))?;
    let number = endings.iter().filter(|ending| so(ending)).count();
    Some((first.pattern.to_string(), some(number, endings.len())))
}

/// So many orders of all.
pub fn some(number: usize, all: usize) -> String {
    match (number, all) {
        (1, 1) => "in the one order".to_string(),
        _ if number == all => format!("in all {all} orders"),
        _ => format!("in {number} of {all} orders"),
    }
}

/// How the orders of a group end.
pub fn ending(group: &Group) -> String {
    let ground = group.ground.map_or(String::new(), |ground| format!(" (ground: {ground})"));
    match (group.owner, waiting(group.waits)) {
        (Some(owner), None) => format!("controller {owner} owns the bus{ground}"),
        (Some(owner), Some(who)) => format!("controller {owner} owns the bus{ground}, {who}"),
        (None, None) => "nobody owns the bus, and nobody asks for it".to_string(),
        (None, Some(who)) => format!("{who}{ground}"),
    }
}

fn line(group: &Group, all: usize) -> String {
    let what = ending(group);
    let first = &group.first;
    let mut text = format!(
        "{} {what}\n    first: {}, order {}\n",
        some(group.count, all),
        first.pattern,
        first.number
    );
    group.why.iter().for_each(|why| text.push_str(&format!("    {why}\n")));
    text
}

/// Who waits, if anybody does.
fn waiting(waits: [bool; 2]) -> Option<String> {
    Some(match waits {
        [false, false] => return None,
        [true, true] => "both controllers wait".to_string(),
        [first, _] => format!("controller {} waits", if first { 0 } else { 1 }),
    })
}

/// Every order, a line each.
pub fn each(endings: &[Ending]) -> String {
    let width = endings.iter().map(|ending| ending.pattern.to_string().len()).max().unwrap_or(0);
    let width = width.max("pattern".len());
    let mut text = format!("order  {:width$}  own  con  wait  refused  ground\n", "pattern");
    for ending in endings {
        let ground = ending.bus.ground.map_or("-".to_string(), |ground| ground.to_string());
        text.push_str(&format!(
            "{:>5}  {:width$}  {:3}  {:3}  {:4}  {:>7}  {ground}\n",
            ending.number,
            ending.pattern,
            who(Master::BOTH.map(|m| ending.bus.owner == Some(m))),
            who(Master::BOTH.map(|m| ending.bus.connected == Some(m))),
            who(ending.waits),
            ending.refused,
        ));
    }
    text
}

fn who(flags: [bool; 2]) -> &'static str {
    match flags {
        [false, false] => "-",
        [true, false] => "0",
        [false, true] => "1",
        [true, true] => "0,1",
    }
}

/// So many orders, of what, and on which part.
pub fn head(names: [&str; 2], lengths: [usize; 2], part: Part, all: usize) -> String {
    let of = |script: usize| format!("{} ({})", count(lengths[script], "event"), names[script]);
    let how = match part {
        PART => "",
        _ => ", by the library's steps: the call that is proved to list all orders is a PCA9641's",
    };
    format!(
        "{} of {} and {}, each on a {part} fresh from power-up{how}\n",
        count(all, "order"),
        of(0),
        of(1)
    )
}
