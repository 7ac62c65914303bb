//! The difference of two runs in words.

use gunwaleish::{Answer, Event, Master};

use super::{Difference, Place, Side};
use crate::story::{Step, Story};
use crate::words::{self, count};
use crate::wrap::{paragraph, wrapped};

/// So many lines of a place are told of either side.
const MOST_LINES: usize = 12;

/// What stands before a line of A or of B.
const SET_IN: usize = 7;

/// The text in lines of at most so many letters.
pub fn told(a: &Side, b: &Side, difference: &Difference, width: usize) -> String {
    let line = |line: &str| match line.starts_with(' ') {
        false => paragraph(line, width),
        true => {
            let (name, words) = line.split_at(SET_IN);
            let rest = format!("\n{}", " ".repeat(SET_IN));
            format!("{name}{}\n", wrapped(words, width - SET_IN).join(&rest))
        }
    };
    whole(a, b, difference).lines().map(line).collect()
}

/// Both runs, where the events differ, where the answers first do, and how each ends.
fn whole(a: &Side, b: &Side, difference: &Difference) -> String {
    let mut text = format!("A: {}\nB: {}\n\n", head(a), head(b));
    if difference.is_none() {
        let events = count(a.story.steps.len(), "event");
        return text + &format!("Alike: pins, part, {events} and their answers are the same.\n");
    }
    text.push_str(&devices(a, b));
    text.push_str(&events(a, b, difference));
    text.push_str(&answers(a, b, difference));
    text.push_str(&format!("\nAt the end:\n{}", both(end(&a.story), end(&b.story))));
    text
}

fn head(side: &Side) -> String {
    let Story { address, pins, part, steps } = &side.story;
    let events = count(steps.len(), "event");
    format!("{}: {part} at address {address:02X}h, pins {pins}, {events}", side.name)
}

/// A line of A and one of B.
fn both(a: String, b: String) -> String {
    format!("    A  {a}\n    B  {b}\n")
}

fn devices(a: &Side, b: &Side) -> String {
    let mut text = String::new();
    if a.story.pins != b.story.pins {
        let pins =
            |side: &Side| format!("pins {}, address {:02X}h", side.story.pins, side.story.address);
        text.push_str(&format!(
            "The pins differ, which changes no answer:\n{}\n",
            both(pins(a), pins(b))
        ));
    }
    if a.story.part != b.story.part {
        let part = |side: &Side| words::part(side.story.part);
        text.push_str(&format!("The parts differ:\n{}\n", both(part(a), part(b))));
    }
    text
}

fn events(a: &Side, b: &Side, difference: &Difference) -> String {
    let mut text = match difference.places.len() {
        0 => return "The events are the same.\n".to_string(),
        1 => "The events differ in 1 place:\n".to_string(),
        number => format!("The events differ in {number} places:\n"),
    };
    for place in &difference.places {
        text.push_str(&format!("{}\n", where_it_is(place)));
        text.push_str(&listed("A", &a.story.steps[place.a.clone()]));
        text.push_str(&listed("B", &b.story.steps[place.b.clone()]));
    }
    text
}

/// Where a place is in A and in B, counted from 1.
fn where_it_is(place: &Place) -> String {
    let said = |range: &std::ops::Range<usize>, name: &str| match range.len() {
        0 if range.start == 0 => format!("before event 1 of {name}"),
        0 => format!("after event {} of {name}", range.start),
        1 => format!("event {} of {name}", range.end),
        _ => format!("events {} to {} of {name}", range.start + 1, range.end),
    };
    match place.a == place.b {
        true => said(&place.a, "both"),
        false => format!("{}, {}", said(&place.a, "A"), said(&place.b, "B")),
    }
}

/// Events, a line each; ticks in a row share one.
fn listed(name: &str, steps: &[Step]) -> String {
    let both_ticks = |x: &Step, y: &Step| x.event == Event::Tick && y.event == Event::Tick;
    let runs: Vec<&[Step]> = steps.chunk_by(both_ticks).collect();
    let mut lines: Vec<String> = runs.iter().take(MOST_LINES).map(|run| in_words(run)).collect();
    let told: usize = runs.iter().take(MOST_LINES).map(|run| run.len()).sum();
    if told < steps.len() {
        lines.push(format!("and {} more", count(steps.len() - told, "event")));
    }
    if lines.is_empty() {
        lines.push("nothing".to_string());
    }
    lines.iter().map(|line| format!("    {name}  {line}\n")).collect()
}

fn in_words(run: &[Step]) -> String {
    match run {
        [first, .., last] => format!("ticks {} to {}", first.tick, last.tick),
        [one] if one.event == Event::Tick => format!("tick {}", one.tick),
        _ => run.iter().map(words::event).collect(),
    }
}

fn answers(a: &Side, b: &Side, difference: &Difference) -> String {
    let paired = difference.pairs.len();
    let Some(&(i, j)) = difference.answers.first() else {
        return match paired {
            0 => "\nNo events belong together, so there are no answers to compare.\n".to_string(),
            1 => "\nThe answer is the same in the 1 event that belongs together.\n".to_string(),
            _ => {
                format!("\nThe answers are the same in all {paired} events that belong together.\n")
            }
        };
    };
    let (first, second) = (&a.story.steps[i], &b.story.steps[j]);
    let place = where_it_is(&Place { a: i..i + 1, b: j..j + 1 });
    let tick = match first.tick == second.tick {
        true => format!("tick {}", first.tick),
        false => format!("tick {} of A, {} of B", first.tick, second.tick),
    };
    format!(
        "\nThe answers first differ at {place}, {tick}, in {}:\n{}They differ in {} of {paired} events \
         that belong together.\n",
        fields(&first.answer, &second.answer).join(", "),
        both(answered(first), answered(second)),
        difference.answers.len()
    )
}

/// What of two answers is not the same.
fn fields(a: &Answer, b: &Answer) -> Vec<&'static str> {
    let all = [
        (a.outcome != b.outcome, "what became of it"),
        (a.byte_read != b.byte_read, "the byte read"),
        (a.owner != b.owner, "the owner"),
        (a.connected != b.connected, "the switch"),
        (a.initialising != b.initialising, "the initialisation"),
        (a.ground != b.ground, "the ground of the claim"),
        (a.int0 != b.int0, "INT0"),
        (a.int1 != b.int1, "INT1"),
        (a.scl != b.scl, "SCL"),
        (a.sda != b.sda, "SDA"),
    ];
    all.into_iter().filter(|(differ, _)| *differ).map(|(_, name)| name).collect()
}

/// An event, what became of it and what changed.
fn answered(step: &Step) -> String {
    let came = match step.event {
        Event::Tick => format!("tick {}", step.tick),
        _ => words::event(step),
    };
    let changed = match step.changes.is_empty() {
        true => "nothing changes".to_string(),
        false => step.changes.iter().map(words::change).collect::<Vec<_>>().join("; "),
    };
    format!("{came}: {}; {changed}; then {}", words::outcome(step.answer.outcome), standing(step))
}

/// How a run ends.
fn end(story: &Story) -> String {
    story.steps.last().map_or("no event".to_string(), standing)
}

/// How the bus stands after a step.
fn standing(step: &Step) -> String {
    let scene = &step.scene;
    let owner = match (scene.owner, scene.connected) {
        (None, _) => "nobody owns the bus".to_string(),
        (Some(m), Some(_)) => format!("controller {m} owns the bus and is connected"),
        (Some(m), None) => format!("controller {m} owns the bus"),
    };
    let waits = Master::BOTH.into_iter().filter(|m| scene.waits[*m as usize]);
    let waits = waits.map(|m| format!("controller {m} waits"));
    let hung = scene.hung.then(|| "the bus is hung".to_string());
    [owner].into_iter().chain(waits).chain(hung).collect::<Vec<_>>().join(", ")
}
