//! A run told as rows, for a table: `explain` without its columns.

use gunwaleish_tool::commands::explain::{ends, folded, heads, line};
use gunwaleish_tool::json::{object, Value};
use gunwaleish_tool::shelf::words::stands;
use gunwaleish_tool::story::Step;

use crate::fields::{Answer, Request};
use crate::traces::story;

/// The rows, or a window of them: from the row of this place on, so many, and so that the row of this event is inside.
pub fn told(request: &Request) -> Answer {
    let story = match story(request, 1) {
        Ok(story) => story,
        Err(refused) => return refused,
    };
    let rows: Vec<&[Step]> = folded(&story).collect();
    let number = |place| request.text(place).parse::<usize>().ok();
    let first = number(2).unwrap_or(0).min(rows.len());
    let most = number(3).unwrap_or(rows.len());
    let of_event = number(4).and_then(|event| {
        rows.iter().position(|steps| steps.last().is_some_and(|last| last.number >= event))
    });
    let first = match of_event {
        Some(row) if row < first => row,
        // In the middle, so that it is seen among others.
        Some(row) if row >= first + most => (row + 1).saturating_sub(most.div_ceil(2)),
        _ => first,
    };
    let shown = &rows[first..rows.len().min(first.saturating_add(most))];
    let told = object([
        ("head", heads(&story).to_vec().into()),
        ("count", rows.len().into()),
        ("first", first.into()),
        ("rows", shown.iter().filter_map(|steps| row(steps)).collect::<Vec<_>>().into()),
        ("end", ends(&story).into()),
    ]);
    Answer::ok(told.to_string())
}

/// One event, or several ticks in which nothing changes.
fn row(steps: &[Step]) -> Option<Value> {
    let (first, last, line) = (steps.first()?, steps.last()?, line(steps)?);
    Some(object([
        ("from", first.number.into()),
        ("to", last.number.into()),
        ("tick", last.tick.into()),
        ("came", line.came.into()),
        ("outcome", line.answered.into()),
        ("refused", first.answer.outcome.is_refused().into()),
        ("after", stands(&last.answer, last.scene.waits, last.scene.hung).into()),
        ("more", line.changed.into()),
    ]))
}
