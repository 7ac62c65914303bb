//! Counts what happens around BUS_HUNG (document 02, #102). See `happenings`.

use crate::device::*;
use crate::event::Event;
use crate::seen::{Happenings, Seen};

/// What the steps so far have to do with a hung bus.
#[derive(Default)]
pub struct Watch {
    /// Ticks for which a line has been low without a break, whatever the other line did.
    scl_low_ticks: u64,
    sda_low_ticks: u64,
    /// The bus was hung at some time since the line went low.
    hung_since_scl: bool,
    hung_since_sda: bool,
    /// Changes of SCL since the last tick, while SDA was low.
    changes: u64,
}

/// A line that was low for this long was about to hang the bus, or had done so.
const LONG_LOW: u64 = 490;

impl Happenings {
    /// Looks at one accepted step.
    pub(crate) fn hanging(&mut self, seen: &Seen, watch: &mut Watch) {
        self.hung_begins(seen, watch);
        self.hung_ends(seen);
        self.just_short(seen);
        self.restarts(seen);
        self.long_lows(seen, watch);
    }

    fn hung_begins(&mut self, seen: &Seen, watch: &mut Watch) {
        let (before, after) = (seen.before, seen.after);
        let begins = !before.is_hung() && after.is_hung();
        self.note(begins && after.scl_low_count == SCL_HUNG_TICKS, "hung by SCL");
        self.note(begins && after.sda_low_count == SDA_HUNG_TICKS, "hung by SDA");
        if seen.event == Event::Tick {
            let low = !before.levels().sda;
            watch.sda_low_ticks += u64::from(low);
            watch.scl_low_ticks += u64::from(!before.levels().scl);
            // Here it would be hung if SCL's changes did not count.
            let clock_runs = watch.sda_low_ticks == SDA_HUNG_TICKS as u64 && !after.is_hung();
            self.note(low && clock_runs, "SDA low for 501 ticks, not hung: the clock runs");
            self.note(watch.changes >= 2, "SCL falls and rises between two ticks, SDA low");
            watch.changes = 0;
        }
    }

    fn hung_ends(&mut self, seen: &Seen) {
        let (before, after) = (seen.before, seen.after);
        if !before.is_hung() || after.is_hung() {
            return;
        }
        if seen.event.is_reset() {
            return self.note(true, "hung ended by a reset");
        }
        let by_scl = before.scl_low_count == SCL_HUNG_TICKS;
        let sda_low = !after.levels().sda;
        self.note(by_scl, "hung by SCL ends: SCL rises");
        self.note(!by_scl && sda_low, "hung by SDA ends: SCL changes");
        self.note(!by_scl && !sda_low, "hung by SDA ends: SDA rises");
    }

    /// Waits that end at the last tick before a hung bus.
    fn just_short(&mut self, seen: &Seen) {
        let (before, after) = (seen.before, seen.after);
        let is = after.levels();
        let moved = before.levels().scl != is.scl;
        if seen.event.is_reset() || before.is_hung() {
            return;
        }
        self.note(before.scl_low_count == SCL_HUNG_TICKS - 1 && is.scl, "SCL rises at 499 ticks");
        let short = before.sda_low_count == SDA_HUNG_TICKS - 1;
        self.note(short && is.sda, "SDA rises at 500 ticks");
        self.note(short && !is.sda && moved, "SCL changes at 500 ticks of SDA low");
    }

    /// What takes an SDA count back to 0 while SDA stays low.
    fn restarts(&mut self, seen: &Seen) {
        let (before, after) = (seen.before, seen.after);
        let (was, is) = (before.levels(), after.levels());
        let counted = before.sda_low_count > 0 && !is.sda && !seen.event.is_reset();
        let moved = counted && was.scl != is.scl;
        let way = if is.scl { "rise" } else { "fall" };
        match seen.event {
            Event::Lines { .. } => self.note(moved, &format!("SDA count restarts: {way} by LINES")),
            Event::Tick => {
                self.note(moved, "SDA count restarts: the TICK that ends a hold");
                let silent = counted && !moved && before.hold == 1;
                self.note(silent, "SDA count goes on: a hold ends and SCL stays low");
            }
            Event::Pulse { .. } => self.note(counted, "SDA count goes on: a PULSE"),
            _ => {
                let ended = before.owner().is_some() && after.owner() != before.owner();
                let by = if ended { "the end of a grant" } else { "a drive" };
                self.note(moved, &format!("SDA count restarts: {way} by {by}"));
            }
        }
    }

    /// Lines that were low for about as long as a hung bus needs, and how that ended.
    fn long_lows(&mut self, seen: &Seen, watch: &mut Watch) {
        let (was, is) = (seen.before.levels(), seen.after.levels());
        let reset = seen.event.is_reset();
        watch.changes += u64::from(was.scl != is.scl && !was.sda && !is.sda);
        watch.hung_since_scl |= seen.after.is_hung();
        watch.hung_since_sda |= seen.after.is_hung();
        if is.scl || reset {
            self.long_low("SCL", watch.scl_low_ticks, watch.hung_since_scl);
            (watch.scl_low_ticks, watch.hung_since_scl) = (0, false);
        }
        if is.sda || reset {
            self.long_low("SDA", watch.sda_low_ticks, watch.hung_since_sda);
            (watch.sda_low_ticks, watch.hung_since_sda) = (0, false);
        }
    }

    fn long_low(&mut self, line: &str, ticks: u64, hung: bool) {
        let end = if hung { "hung" } else { "never hung" };
        self.note(ticks >= LONG_LOW, &format!("{line} low for 490 ticks and more, {end}"));
    }
}
