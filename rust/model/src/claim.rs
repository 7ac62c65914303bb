//! Part 5 of a step: who claims the bus, and on what ground. Document 01, "Order inside a step", and
//! document 02, #107.

use crate::claimant::{Claim, Ground};
use crate::device::{Device, LOCK_REQ, PRIORITY};

impl Device {
    pub fn claimant(&self) -> Option<usize> {
        self.claim.map(|claim| claim.master)
    }

    /// "The ground of the present claim", by its number; "0 with no claimant".
    pub fn ground(&self) -> u8 {
        self.claim.map_or(0, |claim| claim.ground.number())
    }

    /// Part 5. Dropping out and the next claim are in the same part (reading 8).
    pub(crate) fn choose_claimant(&mut self) {
        let requests = |m: usize| self.masters[m].has(LOCK_REQ);
        let sole = |master| Some(Claim { master, ground: Ground::SoleRequester });
        // "A granted master stays the claimant": it lost its grant with its request.
        let stays = |claim: &Claim| requests(claim.master) || self.owner() == Some(claim.master);
        let standing = self.claim.filter(stays);
        self.claim = match (standing, requests(0), requests(1)) {
            (Some(claim), _, _) => Some(claim),
            (None, false, false) => None,
            (None, true, false) => sole(0),
            (None, false, true) => sole(1),
            (None, true, true) => Some(self.winner()),
        };
    }

    /// The winner table: the rows are the priorities of master 0 and master 1. Where they differ,
    /// they are the ground. "With equal priorities and nobody granted before, it is 3."
    fn winner(&self) -> Claim {
        let priorities = (self.masters[0].has(PRIORITY), self.masters[1].has(PRIORITY));
        let (master, ground) = match (priorities, self.last_granted) {
            ((false, false), None) => (0, Ground::LastGranted),
            ((false, false), Some(last)) => (1 - last, Ground::LastGranted),
            ((false, true), _) => (1, Ground::Priority),
            ((true, false), _) => (0, Ground::Priority),
            ((true, true), None) => (1, Ground::LastGranted),
            ((true, true), Some(last)) => (1 - last, Ground::LastGranted),
        };
        Claim { master, ground }
    }
}
