//! One event of a run, and what can be seen of the device after it.

use gunwaleish::{Answer, Event, Ground, Master};

use super::changes::Change;
use super::written::{self, Written};

/// What can be seen of the device at one moment. A pair has master 0's first.
#[derive(Clone, Copy, Debug, PartialEq, Eq)]
pub struct Scene {
    pub owner: Option<Master>,
    /// Who claims the bus, or owns it, and on what ground.
    pub claimant: Option<Master>,
    pub ground: Option<Ground>,
    pub connected: Option<Master>,
    pub initialising: bool,
    pub asserted: [bool; 2],
    pub scl: bool,
    pub sda: bool,
    /// A request stands and is not granted.
    pub waits: [bool; 2],
    pub hung: bool,
}

/// A device after power-up.
pub const POWER_UP: Scene = Scene {
    owner: None,
    claimant: None,
    ground: None,
    connected: None,
    initialising: false,
    asserted: [false; 2],
    scl: true,
    sda: true,
    waits: [false; 2],
    hung: false,
};

/// One event of a run.
#[derive(Clone, Debug, PartialEq, Eq)]
pub struct Step {
    /// Its place in the trace, or in the script of a shelf, from 1.
    pub number: usize,
    /// The ticks that have passed, this one included.
    pub tick: usize,
    pub event: Event,
    pub answer: Answer,
    /// What each master had written before this event, and after it.
    pub before: [Written; 2],
    pub after: [Written; 2],
    /// A byte that this master wrote was dropped, since its partner's mailbox is full.
    pub dropped: [bool; 2],
    /// What can be seen after it.
    pub scene: Scene,
    /// What changed in it.
    pub changes: Vec<Change>,
}

impl Step {
    pub fn is_quiet_tick(&self) -> bool {
        self.event == Event::Tick && self.changes.is_empty()
    }

    /// True if this event was a reset: of the pin, or a general call that was taken as one.
    pub fn is_reset(&self) -> bool {
        written::is_reset(self.event, self.answer)
    }
}
