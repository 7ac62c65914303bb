//! What stands at the end of a bus that was watched.

use gunwaleish::Master;

use super::{words, State};
use crate::samples::rate::{in_words, time_of};
use crate::words::{capital, count};

/// All of it, a line a thing.
pub fn told(name: &str, state: &State) -> String {
    let watch = &state.watch;
    let number = |number: u64, noun: &str| count(number as usize, noun);
    let mut lines = vec![
        format!(
            "{name}: {}, {} at {}{}",
            time_of(watch.samples(), state.rate),
            number(watch.samples(), "sample"),
            in_words(state.rate),
            if state.below { ", with the bus below" } else { "" }
        ),
        format!("{}, {}", number(watch.events(), "event"), reads(watch.reads())),
        verdict(state),
    ];
    if state.overtaken > 0 {
        lines.push(format!(
            "{} overtaken: the model answered so while the byte was on the bus",
            number(state.overtaken, "READ")
        ));
    }
    if state.taken > 0 {
        lines.push(format!("The model was resynchronised {}", times(state.taken)));
    }
    if let Some(sample) = state.initialising {
        lines.push(format!(
            "An initialisation ran at {}, and its PULSEs stand on no line: what differs after it says nothing of \
             the chip",
            time_of(sample, state.rate)
        ));
    }
    lines.push(faults(state));
    lines.extend(Master::BOTH.map(|master| waits(state, master)));
    lines.iter().map(|line| format!("{line}\n")).collect()
}

fn reads(number: u64) -> String {
    match number {
        0 => "none of them a READ".to_string(),
        1 => "1 of them a READ, held against the model".to_string(),
        more => format!("{more} of them READs, each held against the model"),
    }
}

fn times(number: u64) -> String {
    match number {
        1 => "once".to_string(),
        2 => "twice".to_string(),
        more => format!("{more} times"),
    }
}

/// Whether the chip answered as the model.
fn verdict(state: &State) -> String {
    match (state.watch.reads(), state.differences, &state.first) {
        (0, ..) => format!(
            "No READ of {:02X}h was heard, so nothing is known of the chip; gunwaleish import tells for whom there \
             are transfers",
            state.watch.settings().address
        ),
        (_, 0, _) | (_, _, None) => "No difference: the chip answered as the model".to_string(),
        (_, differences, Some(first)) => format!(
            "{}; the first at {}, sample {}: controller {}: {}",
            capital(&count(differences as usize, "difference")),
            time_of(first.sample, state.rate),
            first.sample,
            first.master,
            words::read(first)
        ),
    }
}

fn faults(state: &State) -> String {
    match (state.watch.faults(), state.watch.first_fault()) {
        (0, _) | (_, None) => "No START or STOP inside a byte".to_string(),
        (faults, Some(first)) => format!(
            "{} of a START or STOP inside a byte, whose bytes are lost; the first at {}, sample {first}",
            count(faults as usize, "fault"),
            time_of(first, state.rate)
        ),
    }
}

/// How long a controller waited, and what is promised.
fn waits(state: &State, master: Master) -> String {
    let waited = &state.waits.each[master as usize];
    let said = match waited.count {
        0 => format!("Controller {master} did not wait"),
        waits => format!(
            "Controller {master} waited {} ms in {}, the longest {} ms, from {} on",
            waited.ticks,
            count(waits as usize, "wait"),
            waited.longest,
            time_of(waited.longest_from.saturating_mul(state.every), state.rate)
        ),
    };
    let promised = match (state.waits.promised[master as usize], waited.above) {
        (None, _) => String::new(),
        (Some(most), 0) => format!("; the sheets promise {most} ms at most"),
        (Some(most), above) => format!(
            "; the sheets promise {most} ms at most, and {} above it",
            if above == 1 { "1 wait was".to_string() } else { format!("{above} waits were") }
        ),
    };
    said + &promised
}
