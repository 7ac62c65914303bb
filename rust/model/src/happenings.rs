//! Counts what happens when a list runs through the model. The tests use it
//! to see that the random cases reach every corner.
//!
//! A happening is told from the device before and after the step and from the
//! event. The model itself holds nothing that is there for counting only.

use crate::device::*;
use crate::event::{read_event, Event};
use crate::hanging::Watch;
use crate::part::Kind;
use crate::second_part::Rolled;
use crate::seen::{Seen, EVENT_NAMES};

pub use crate::kinds::kinds_of;
pub use crate::seen::Happenings;

/// What the counters remember of the steps before.
#[derive(Default)]
struct Memory {
    low: Watch,
    rolled: Rolled,
}

impl Happenings {
    /// Runs a list on a fresh part of this kind and counts along.
    pub fn run(&mut self, kind: Kind, events: &[[u8; 4]]) -> Vec<[u8; 4]> {
        let mut device = Device::power_up_of(kind);
        let mut memory = Memory::default();
        let mut answers = vec![];
        for &bytes in events {
            let before = device.clone();
            let answer = device.step(bytes);
            self.look(bytes, answer[0], &before, &device, &mut memory);
            answers.push(answer);
        }
        answers
    }

    fn look(
        &mut self,
        bytes: [u8; 4],
        outcome: u8,
        before: &Device,
        after: &Device,
        memory: &mut Memory,
    ) {
        self.note(outcome == 2, "refused 2");
        self.note(outcome == 3, "refused 3");
        let name = EVENT_NAMES.get(bytes[0] as usize).copied().unwrap_or("");
        self.note(outcome == 4, &format!("refused 4, {name}"));
        self.note(outcome == 1, &format!("not acknowledged, {name}"));
        self.ground_shown(outcome, after);
        let Ok(event) = read_event(bytes) else {
            return;
        };
        if outcome <= 1 {
            let seen = Seen { event, before, after };
            self.grants(&seen);
            self.ends(&seen);
            self.claims(&seen);
            self.grounds(&seen);
            self.lines(&seen);
            self.hanging(&seen, &mut memory.low);
            self.second_part(&seen, &mut memory.rolled);
            self.initialisation(&seen);
            self.hold(&seen);
            for m in [0, 1] {
                self.mail(&seen, m);
                self.writes(&seen, m);
                self.outputs(&seen, m);
            }
        }
    }

    fn grants(&mut self, seen: &Seen) {
        let (was, is) = (seen.before.owner(), seen.after.owner());
        let Some(m) = is.filter(|_| was != is) else {
            return;
        };
        self.note(true, &format!("grant to {m}"));
        self.note(was.is_some(), "grant passes on in one step");
        self.note(seen.after.busy, "grant on a busy bus");
        self.note(seen.before.hold > 0, "grant in the tick that ends a hold");
        self.note(seen.after.masters[m].rt > 0, "grant with a reserve");
        self.note(seen.after.masters[m].rt == 0, "grant without a reserve");
    }

    /// Why a grant ended: reset, withdrawal, or one of the two losses.
    fn ends(&mut self, seen: &Seen) {
        let Some(grant) = &seen.before.grant else {
            return;
        };
        let m = grant.owner;
        let ran_out = grant.reserve > 0 && seen.before.reserve_count == 1;
        let still = seen.after.owner() == Some(m);
        self.note(
            still && ran_out && seen.event == Event::Tick,
            "reserve runs out on a bus not idle",
        );
        if still {
            return;
        }
        if seen.event.is_reset() {
            return self.note(true, "grant ended by a reset");
        }
        if seen.lets_go(m) {
            self.note(seen.before.drives != BOTH_HIGH, "withdrawal releases the drives");
            return self.note(true, "withdrawal");
        }
        let at = match seen.event {
            Event::Tick => "in a TICK",
            Event::Lines { .. } => "in a LINES",
            _ => "in a byte",
        };
        let by = if grant.reserve > 0 { "reserve" } else { "idle timer" };
        self.note(true, &format!("loss by {by} {at}"));
    }

    fn claims(&mut self, seen: &Seen) {
        let (before, after) = (seen.before, seen.after);
        if let (Some(m), None) = (before.claimant(), before.owner()) {
            self.note(seen.lets_go(m), "claim withdrawn before its grant");
            let connect = after.masters[m].has(BUS_CONNECT);
            self.note(seen.lets_go(m) && connect, "claim withdrawn, BUS_CONNECT kept");
        }
        let both = after.masters.iter().all(|m| m.has(LOCK_REQ));
        if before.claim.is_none() && both {
            let row = [0, 1].map(|m| u8::from(after.masters[m].has(PRIORITY)));
            let last = match before.last_granted {
                None => "none".to_string(),
                Some(m) => m.to_string(),
            };
            self.note(true, &format!("winner table {}{}, last {last}", row[0], row[1]));
        }
    }

    fn lines(&mut self, seen: &Seen) {
        let (before, after) = (seen.before, seen.after);
        let by_drive = !matches!(seen.event, Event::Lines { .. });
        let started = !before.busy && after.busy;
        let stopped = before.busy && !after.busy && !seen.event.is_reset();
        self.note(started && !by_drive, "START by LINES");
        self.note(stopped && !by_drive, "STOP by LINES");
        self.note(started && by_drive, "START by a drive");
        self.note(stopped && by_drive, "STOP by a drive");
        self.note(before.int_in && !after.int_in, "INT_IN fall");
        if let (34, 35, Some(m)) = (
            before.scl_low_count,
            after.scl_low_count,
            after.owner_with_connect().or(before.owner_with_connect()),
        ) {
            let cut = !after.masters[m].has(BUS_CONNECT);
            self.note(cut, "cut at 35 ticks");
            self.note(cut && before.initialising().is_some(), "cut at 35 ticks while initialising");
            self.note(!cut, "35 ticks and no cut");
        }
    }

    fn initialisation(&mut self, seen: &Seen) {
        let (before, after) = (seen.before, seen.after);
        let moved = before.owner() != after.owner();
        let started = after.initialising() == Some(0) && (before.initialising().is_none() || moved);
        self.note(started, "initialisation starts");
        self.note(started && before.bus_init_fail, "a start clears BUS_INIT_FAIL");
        self.note(
            started && before.closed_for().is_some(),
            "initialisation starts as the bus passes on",
        );
        let ended = before.initialising().is_some() && (after.initialising().is_none() || moved);
        match seen.event {
            _ if !ended => {}
            Event::Pulse { sda: true } => {
                self.note(true, "initialisation succeeds");
                self.note(
                    before.initialising() == Some(8),
                    "initialisation succeeds at the ninth clock",
                );
            }
            Event::Pulse { sda: false } => self.note(true, "initialisation fails"),
            _ if seen.event.is_reset() => self.note(true, "initialisation ended by a reset"),
            _ => self.note(true, "initialisation abandoned"),
        }
    }

    fn hold(&mut self, seen: &Seen) {
        let (before, after) = (seen.before.hold, seen.after.hold);
        let reset = seen.event.is_reset();
        self.note(reset && seen.event == Event::Reset, "pin reset");
        self.note(reset && seen.event != Event::Reset, "soft reset");
        self.note(reset && after == HOLD_TICKS, "hold starts");
        self.note(reset && before > 0 && after == 0, "hold ended by a reset");
        self.note(!reset && before == 1 && after == 0, "hold ends in a TICK");
    }

    fn mail(&mut self, seen: &Seen, m: usize) {
        let own = &seen.before.masters[m];
        let full = seen.before.masters[1 - m].mail_full;
        let byte = seen.written_by(m);
        self.note(matches!(byte, Some((7, _))) && !full, &format!("mail fills box of {}", 1 - m));
        self.note(matches!(byte, Some((6, _))) && full, "mail low byte dropped");
        self.note(matches!(byte, Some((7, _))) && full, "mail high byte dropped");
        let clears = matches!(byte, Some((4, bits)) if bits & INT_MAIL_FULL != 0);
        let fills = matches!(seen.written_by(1 - m), Some((7, _))) && !own.mail_full;
        self.note(clears && fills, "PAIR clash on INT_STATUS bit 5");
        if seen.event == (Event::Read { master: m }) {
            self.note(own.pointer == 7 && own.mail_full, &format!("mail empties box of {m}"));
            self.note(own.pointer == 7 && !own.mail_full, "mail read from an empty box");
            self.note(own.pointer == 7 && own.auto_increment, "read pointer goes 7 to 0");
        }
    }

    fn writes(&mut self, seen: &Seen, m: usize) {
        let Some((pointer, value)) = seen.written_by(m) else {
            return;
        };
        let own = &seen.before.masters[m];
        let granted = seen.before.owner() == Some(m);
        let connect = own.has(BUS_CONNECT);
        let pair = matches!(seen.event, Event::Pair { .. });
        let lets_connect = value & BUS_CONNECT != 0 && value & LOCK_REQ != 0;
        let released = granted && lets_connect && seen.before.drives != BOTH_HIGH;
        self.note(pair && m == 0, "PAIR taken");
        let may_drive = granted && !connect;
        self.note(pointer == 2 && may_drive, "drive write acts");
        self.note(pointer == 2 && !may_drive, "drive write ignored");
        self.note(pointer == 2 && value & 0x20 != 0, "TEST_INT");
        self.note(pointer == 3 && granted && value != own.rt, "RT write while granted");
        self.note(pointer == 1 && released, "BUS_CONNECT releases the drives");
        let midway = granted && seen.before.initialising().is_some();
        let toggles = (value ^ own.contr) & BUS_INIT != 0;
        self.note(pointer == 1 && midway && toggles, "BUS_INIT written while initialising");
    }

    fn outputs(&mut self, seen: &Seen, m: usize) {
        let closes = seen.after.closed_for() == Some(m) && seen.before.closed_for() != Some(m);
        self.note(closes, &format!("switch closes for {m}"));
        self.note(closes && seen.before.closed_for().is_some(), "switch passes in one step");
        let rises = !seen.before.interrupt_asserted(m) && seen.after.interrupt_asserted(m);
        self.note(rises, &format!("INT{m} becomes asserted"));
        let hung = seen.after.is_hung() && seen.after.masters[m].int_msk & INT_HUNG == 0;
        self.note(rises && hung, "hung bus asserts an output");
    }
}
