//! Counts what happens where the two kinds of part differ (document 02, #105). See `happenings`.

use crate::device::*;
use crate::event::Event;
use crate::part::Kind;
use crate::seen::{Happenings, Seen};

/// For each master: whether its write pointer has gone from 7 to 0 since its last COMMAND.
#[derive(Default)]
pub struct Rolled([bool; 2]);

impl Happenings {
    /// Looks at one accepted step.
    pub(crate) fn second_part(&mut self, seen: &Seen, rolled: &mut Rolled) {
        for m in [0, 1] {
            self.pointer(seen, m, rolled);
        }
        self.idle_limit(seen);
    }

    fn pointer(&mut self, seen: &Seen, m: usize, rolled: &mut Rolled) {
        if matches!(seen.event, Event::Command { master, .. } if master == m) {
            rolled.0[m] = false;
        }
        let Some((pointer, _)) = seen.written_by(m) else {
            return;
        };
        let (own, now) = (&seen.before.masters[m], seen.after.masters[m].pointer);
        let past_7 = pointer == 7 && own.auto_increment;
        let pair = matches!(seen.event, Event::Pair { .. });
        self.note(pointer == 7 && !own.auto_increment, "write at 7 without auto-increment");
        self.note(past_7 && now == 7, "write pointer stays at 7");
        self.note(past_7 && now == 0, "write pointer goes 7 to 0");
        self.note(past_7 && now == 0 && pair, "write pointer goes 7 to 0 in a PAIR");
        let in_burst = rolled.0[m];
        self.note(in_burst && pointer == 0, "a burst past 7 is not acknowledged at 0");
        self.note(in_burst && pointer == 1, "a burst past 7 writes CONTR");
        rolled.0[m] |= past_7 && now == 0;
    }

    /// How an owner without a reserve fares about the limit of the idle count.
    fn idle_limit(&mut self, seen: &Seen) {
        let (before, after) = (seen.before, seen.after);
        let limit = after.kind.idle_ticks();
        let ticked = seen.event == Event::Tick;
        let stays = ticked && before.idle_count == limit && after.idle_count == limit;
        self.note(stays, "idle count stays at its limit");
        let Some(owner) = after.owner().filter(|_| before.owner() == after.owner()) else {
            return;
        };
        let timed = |device: &Device| {
            let unlimited = device.grant.as_ref().is_some_and(|grant| grant.reserve == 0);
            unlimited && device.masters[owner].has(IDLE_TIMER_DIS)
        };
        let short = ticked && timed(after) && after.idle_count == limit - 1;
        self.note(short, "one tick short of the idle limit, idle timer on, owner stays");
        // The other part would have lost the bus here.
        let other = Kind::Pca9641.idle_ticks();
        let past_other = timed(after) && (other..limit).contains(&after.idle_count);
        self.note(past_other && ticked, "101 to 150 idle ticks, idle timer on, owner stays");
        self.note(
            past_other && !timed(before),
            "idle timer switched on at 101 to 150 idle ticks, owner stays",
        );
    }
}
