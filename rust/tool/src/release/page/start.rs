//! The start: the twelve events that the sheets order, and ticks until the one that waits has its turn.

use gunwaleish::{sheet_events, write_trace, Event, Master, Part, Pins, Refusal, Section};

use super::figure::figure;
use super::html::{paragraph, section};
use super::statements::{self, Statement};
use crate::release::Examined;
use crate::sheet::Pair;
use crate::startup::PART;
use crate::story::{follow, idle_limit, Change, Story};
use crate::words::ticks;

/// Ticks that are drawn where no number of them would do.
const WITHOUT_END: usize = 300;
/// Ticks that are drawn after the turn, so that it can be seen.
const AFTER: usize = 5;

pub fn written(examined: &Examined) -> String {
    let body = match &examined.pair {
        Ok(pair) if pair.waits.is_empty() => {
            paragraph("The sheets are not complete and order no events: there is no start to draw.")
        }
        Ok(pair) => drawn(examined, pair)
            .unwrap_or_else(|refusal| paragraph(&format!("The start cannot be drawn: {refusal}."))),
        Err(_) => paragraph("One of the two is no order sheet: there is no start to draw."),
    };
    section("start", "The start", &body)
}

fn drawn(examined: &Examined, pair: &Pair) -> Result<String, Refusal> {
    let bundle = &examined.bundle;
    let mut events = sheet_events(&bundle.board.bytes, &bundle.house.bytes)?.to_vec();
    events.extend(vec![Event::Tick; how_many(pair, part(examined))]);
    // The pins bear on no answer.
    let story = follow(&write_trace(Pins::default(), part(examined), &events)?)?;
    Ok(figure(&story, &caption(&story)) + &statements::listed(&proofs(pair)))
}

/// The part of the start-up scripts, or the one on which orders are listed. It bears on the start only where
/// the idle timer ends a grant.
fn part(examined: &Examined) -> Part {
    examined.orders.as_ref().map_or(PART, |orders| orders.scripts.part)
}

/// Controller 0's reserve and idle timer, which decide how long controller 1 waits first.
fn of_first(pair: &Pair) -> (u8, u8) {
    let value = |section| pair.value(section, Master::Zero).unwrap_or(0);
    (value(Section::Reserve), value(Section::Idle))
}

/// So many ticks show the turn of controller 1, if it comes.
fn how_many(pair: &Pair, part: Part) -> usize {
    match of_first(pair) {
        (0, 0) => WITHOUT_END,
        (0, _) => idle_limit(part) + AFTER,
        (reserve, _) => usize::from(reserve) + AFTER,
    }
}

/// When the turn comes is taken from the run.
fn caption(story: &Story) -> String {
    let is_turn = |change: &Change| matches!(change, Change::Granted { master: Master::One, .. });
    let turn = story.steps.iter().find(|step| step.changes.iter().any(is_turn));
    let when = match turn {
        Some(step) => format!("Controller 1, which waits, has its turn at tick {}.", step.tick),
        None => format!(
            "Controller 1, which waits, has no turn in {}, and would have none however many came.",
            ticks(story.ticks())
        ),
    };
    format!(
        "The start: the twelve events that the sheets order, on a {} fresh from power-up, and ticks in which neither controller \
         does anything. {when}",
        story.part
    )
}

fn proofs(pair: &Pair) -> [&'static Statement; 2] {
    let turn = match of_first(pair) {
        (0, 0) => &statements::HELD_UNTIL_LET_GO,
        (0, _) => &statements::IDLE_TIMER_EXACT,
        _ => &statements::PAIR_IN_TIME,
    };
    [&statements::STANDS_AT_POWER_UP, turn]
}
