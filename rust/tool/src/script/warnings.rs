//! What is worth a second look in a script that can be read: a byte of RT that does not say whether it is
//! hex, a time where none belongs, and a word that only looks like decimal.
//!
//! Which register a byte is for follows from the events before it and their answers.

use std::collections::HashMap;

use gunwaleish::{run, write_trace};

use super::bytes::{Mark, Written};
use super::named::read_named_bytes;
use super::{read_script, Script, RT};
use crate::files::Input;
use crate::shelf::Shelved;
use crate::story::pointers;
use crate::telling::complain;
use crate::words::register;

/// Tells what is worth a second look in a script. Of one that cannot be read, nothing.
pub fn tell(input: &Input) {
    of_input(input).iter().for_each(|text| complain(text));
}

/// What is told of a script.
pub fn of_input(input: &Input) -> Vec<String> {
    let script = read_script(&input.bytes);
    script.map_or(vec![], |script| with_name(input, of_script(&script)))
}

/// What is told of a script that was run over a shelf.
pub fn of_shelved(input: &Input, shelved: &Shelved) -> Vec<String> {
    let read = read_named_bytes(&input.bytes);
    read.map_or(vec![], |(_, written)| with_name(input, of_shelf(&written, shelved)))
}

fn with_name(input: &Input, warnings: Vec<String>) -> Vec<String> {
    warnings.iter().map(|text| format!("{}, {text}", input.name)).collect()
}

pub fn of_script(script: &Script) -> Vec<String> {
    // Where no register could give one of these bytes a warning, the run is not needed.
    let doubtful = |written: &Written| (0..8).any(|pointer| warning(written, pointer).is_some());
    if !script.written.iter().any(doubtful) {
        return vec![];
    }
    let trace = write_trace(script.pins, script.part, &script.events);
    let Ok(run) = trace.and_then(|trace| run(&trace)) else {
        return vec![];
    };
    let pointers = pointers(&run);
    let at = |written: &Written| pointers[written.event].map(|both| both[written.master as usize]);
    script.written.iter().filter_map(|written| warning(written, at(written)?)).collect()
}

/// The device that an event names is the one that takes its byte.
pub fn of_shelf(written: &[Written], shelved: &Shelved) -> Vec<String> {
    let steps = shelved.stories.iter().flat_map(|story| &story.steps);
    let taken = steps.filter(|step| !step.answer.outcome.is_refused());
    let taken: HashMap<usize, [u8; 2]> =
        taken.map(|step| (step.number, step.before.map(|own| own.pointer))).collect();
    let at = |written: &Written| Some(taken.get(&(written.event + 1))?[written.master as usize]);
    written.iter().filter_map(|written| warning(written, at(written)?)).collect()
}

/// What there is to say of a byte for this register.
fn warning(written: &Written, pointer: u8) -> Option<String> {
    let byte = &written.byte;
    let (word, value) = (&byte.word, byte.value);
    let said = match byte.mark {
        // Up to 9 it is the same in hex and in decimal.
        Mark::None if pointer == RT && value > 9 => {
            let other = byte
                .misread()
                .map_or(String::new(), |meant| format!(", or {meant}ms for {meant} ms"));
            format!("{word} is hex, so RT is {value} ms: write {value}ms or {value:02X}h for that{other}")
        }
        Mark::None if byte.looks_decimal() => {
            let meant = byte.misread().unwrap_or_default();
            format!(
                "{word} is hex, {value:02X}h: write that, or {meant:02}d for {meant} in decimal"
            )
        }
        Mark::Milliseconds if pointer != RT => {
            format!("{word} is a time, and the byte is for {}", register(pointer))
        }
        _ => return None,
    };
    Some(format!("line {}: warning: {said}", written.line))
}
