//! Counts on what grounds claims are won, and what leaves a ground as it is (document 02, #107). See
//! `happenings`.

use crate::claimant::Ground;
use crate::device::*;
use crate::event::Event;
use crate::seen::{Happenings, Seen};

impl Happenings {
    /// Looks at one accepted step.
    pub(crate) fn grounds(&mut self, seen: &Seen) {
        if seen.before.claim != seen.after.claim {
            self.ground_moves(seen);
        } else if seen.after.claim.is_some() {
            self.ground_stays(seen);
        }
    }

    /// Looks at the answer of any event, also a refused one.
    pub(crate) fn ground_shown(&mut self, outcome: u8, device: &Device) {
        let shown = device.ground() != 0;
        self.note(shown && outcome >= 2, "ground shown in a refused answer");
        self.note(shown && outcome == 1, "ground shown in an answer not acknowledged");
        self.note(shown && device.hold > 0, "ground shown under a hold");
        self.note(shown && device.owner().is_none(), "ground shown before the grant");
        self.note(shown && device.owner().is_some(), "ground shown in a grant");
    }

    /// A claim is new, or another, or ends.
    fn ground_moves(&mut self, seen: &Seen) {
        let (before, after) = (seen.before, seen.after);
        let Some(claim) = after.claim else {
            let by = if seen.event.is_reset() { "a reset" } else { "a step with no other request" };
            return self.note(true, &format!("ground {} ends in {by}", before.ground()));
        };
        let other = before.last_granted.map(|last| 1 - last);
        let agrees = if Some(claim.master) == other { "too" } else { "not" };
        match claim.ground {
            Ground::SoleRequester if before.claim.is_none() => {
                self.note(true, "ground 1: the first to ask")
            }
            Ground::SoleRequester if before.owner().is_none() => {
                self.note(true, "ground 1: follows a claim withdrawn")
            }
            Ground::SoleRequester => {
                let lost = !matches!(seen.event, Event::Write { .. } | Event::Pair { .. });
                self.note(lost, "ground 1: follows a loss");
                self.note(!lost, "ground 1: follows in a byte");
            }
            Ground::Priority if before.last_granted.is_none() => {
                self.note(true, "ground 2, nobody granted before")
            }
            Ground::Priority => {
                self.note(true, &format!("ground 2, last granted would choose it {agrees}"))
            }
            Ground::LastGranted => {
                let first = before.last_granted.is_none();
                self.note(first, "ground 3, nobody granted before");
                self.note(!first, "ground 3, another was granted last");
            }
        }
    }

    /// What might have moved a ground, and does not.
    fn ground_stays(&mut self, seen: &Seen) {
        let (before, after) = (seen.before, seen.after);
        let m = after.claimant().unwrap_or(0);
        let ground = after.ground();
        let turned =
            |who: usize, bit: u8| before.masters[who].has(bit) != after.masters[who].has(bit);
        let granted = if before.owner().is_some() { "granted" } else { "not yet granted" };
        let asks = turned(1 - m, LOCK_REQ) && after.masters[1 - m].has(LOCK_REQ);
        self.note(asks, &format!("ground kept: the partner asks, {granted}"));
        let any = turned(0, PRIORITY) || turned(1, PRIORITY);
        self.note(any, &format!("ground kept: a priority changes, {granted}"));
        let grant = before.owner().is_none() && after.owner().is_some();
        self.note(grant, &format!("ground {ground} kept: the grant"));
        let partner_drops = turned(1 - m, LOCK_REQ) && !asks;
        self.note(partner_drops, "ground kept: the partner asks no more");
        let cut = seen.event == Event::Tick
            && before.owner_with_connect().is_some()
            && after.owner_with_connect().is_none();
        self.note(cut, "ground kept: the cut at 35 ticks");
    }
}
