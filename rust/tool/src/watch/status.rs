//! The line that goes on while a bus is watched, on a terminal alone.

use std::io::{self, IsTerminal, Write};
use std::time::{Duration, Instant};

use gunwaleish::Master;

use super::{waits, State};
use crate::samples::rate::time_of;
use crate::words::count;

/// It is written anew after so long.
const EACH: Duration = Duration::from_millis(200);

pub struct Status {
    shown: bool,
    last: Option<Instant>,
    /// How long the line is that stands there.
    length: usize,
}

impl Default for Status {
    fn default() -> Status {
        Status { shown: io::stderr().is_terminal(), last: None, length: 0 }
    }
}

impl Status {
    pub fn goes_on(&mut self, state: &State) {
        if !self.shown || self.last.is_some_and(|last| last.elapsed() < EACH) {
            return;
        }
        self.last = Some(Instant::now());
        let text = line(state);
        let _ = write!(io::stderr(), "\r{text:<width$}", width = self.length);
        self.length = text.chars().count();
    }

    /// Makes room for other lines.
    pub fn clear(&mut self) {
        if self.length > 0 {
            let _ = write!(io::stderr(), "\r{:width$}\r", "", width = self.length);
            (self.length, self.last) = (0, None);
        }
    }
}

/// Time, events, owner, waits so far, differences.
pub fn line(state: &State) -> String {
    let device = state.watch.device();
    let owner = match waits::owner(&device) {
        Some(master) => format!("controller {master} owns"),
        None => "nobody owns".to_string(),
    };
    let waited = |master: Master| {
        let waited = &state.waits.each[master as usize];
        let now = if waited.now > 0 { format!(", now {}", waited.now) } else { String::new() };
        format!("{} (longest {}{now})", waited.ticks, waited.longest)
    };
    let [first, second] = Master::BOTH.map(waited);
    format!(
        "{}  {}  {owner}  waited ms: 0: {first}, 1: {second}  {}",
        time_of(state.next, state.rate),
        count(state.watch.events() as usize, "event"),
        count(state.differences as usize, "difference")
    )
}
