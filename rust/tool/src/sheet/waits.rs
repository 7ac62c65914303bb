//! How long each controller can wait by a pair of sheets, in words.

use gunwaleish::{Part, Wait};

use super::{Pair, Waiting};

/// What the figures hold for.
pub const HOLDS: &str =
    "The figures hold for one that keeps asking, if the bus is idle then and its own port at rest, else \
     once they are; with no reset, and with RT left as ordered.";

/// A line for each controller, and what they hold for.
pub fn told(pair: &Pair) -> String {
    let mut lines: Vec<String> = pair.waits.iter().map(in_words).collect();
    if are_bounded(pair) {
        lines.push(HOLDS.to_string());
    }
    format!("How long each can wait from then on, at every handover:\n{}", lines.join("\n"))
}

/// True if there is a figure.
pub fn are_bounded(pair: &Pair) -> bool {
    pair.waits.iter().any(|waiting| waiting.on[0].1.ticks().is_some())
}

/// How long a controller can wait, a sentence.
pub fn in_words(waiting: &Waiting) -> String {
    let controller = waiting.controller;
    let holder = controller.partner();
    // The grade does not go by the part, and neither does what a reserve gives.
    let [(_, wait), _] = waiting.on;
    match wait {
        Wait::Live { ticks } => format!(
            "Controller {controller} waits at most {ticks} ms behind a controller {holder} that sends \
             its STOPs."
        ),
        Wait::Silent { .. } => format!(
            "Controller {controller} waits at most {}, counted from controller {holder}'s grant, but only \
             behind a silent controller {holder} on an idle bus, and only while controller {holder}'s CONTR keeps its idle timer on; behind a \
             live one it waits without limit.",
            waiting.on.map(on_part).join(", ")
        ),
        Wait::Unbounded => format!(
            "Controller {controller} waits without limit behind controller {holder}: reserve 00h and \
             the idle timer off."
        ),
    }
}

fn on_part((part, wait): (Part, Wait)) -> String {
    format!("{} ms on a {part}", wait.ticks().unwrap_or_default())
}
