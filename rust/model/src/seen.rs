//! The counts of what happened, and one step as those who count see it. `happenings` goes through runs with them.

use std::collections::BTreeMap;

use crate::device::{Device, LOCK_REQ};
use crate::event::Event;

/// The kinds of event, by number.
pub(crate) const EVENT_NAMES: [&str; 10] =
    ["COMMAND", "WRITE", "READ", "STOP", "PAIR", "LINES", "TICK", "PULSE", "RESET", "GENERAL CALL"];

#[derive(Default)]
pub struct Happenings {
    counts: BTreeMap<String, u64>,
}

/// One accepted step, as the counters see it.
pub(crate) struct Seen<'a> {
    pub event: Event,
    pub before: &'a Device,
    pub after: &'a Device,
}

impl Seen<'_> {
    /// The register and the value that master m writes in this event, if any.
    pub fn written_by(&self, m: usize) -> Option<(u8, u8)> {
        let pointer = self.before.masters[m].pointer;
        match self.event {
            Event::Write { master, value } if master == m => Some((pointer, value)),
            Event::Pair { values } => Some((pointer, values[m])),
            _ => None,
        }
    }

    /// True if master m writes LOCK_REQ 0.
    pub fn lets_go(&self, m: usize) -> bool {
        matches!(self.written_by(m), Some((1, value)) if value & LOCK_REQ == 0)
    }
}

impl Happenings {
    pub fn count(&self, kind: &str) -> u64 {
        self.counts.get(kind).copied().unwrap_or(0)
    }

    /// Every kind that was counted, also one that has no name in `kinds`.
    pub fn counted(&self) -> impl Iterator<Item = &str> {
        self.counts.keys().map(|kind| kind.as_str())
    }

    /// Adds what was counted elsewhere.
    pub fn add(&mut self, other: &Happenings) {
        for (kind, count) in &other.counts {
            *self.counts.entry(kind.clone()).or_insert(0) += count;
        }
    }

    pub(crate) fn note(&mut self, condition: bool, kind: &str) {
        if condition {
            *self.counts.entry(kind.to_string()).or_insert(0) += 1;
        }
    }
}
