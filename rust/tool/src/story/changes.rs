//! What can change in one event.

use gunwaleish::{Ground, Master};

/// How a grant ended.
#[derive(Clone, Copy, Debug, PartialEq, Eq)]
pub enum GrantEnd {
    /// Its owner wrote LOCK_REQ 0.
    LetGo,
    /// The device took it: the reserve had run out, or the idle timer.
    Lost,
    Reset,
}

/// How an initialisation ended.
#[derive(Clone, Copy, Debug, PartialEq, Eq)]
pub enum InitialisationEnd {
    Succeeds,
    Fails,
    /// Its owner lost the bus or BUS_CONNECT.
    IsAbandoned,
}

/// One thing that can be seen to have changed.
#[derive(Clone, Copy, Debug, PartialEq, Eq)]
pub enum Change {
    GrantEnded(Master, GrantEnd),
    BeginsToWait(Master),
    /// It waits no more and was not granted.
    GivesUp(Master),
    /// A claim is made, and on what ground.
    Claims(Master, Ground),
    /// With the RT that holds for this grant, and the idle ticks at which the idle timer ends it, if
    /// that is on.
    Granted {
        master: Master,
        rt: u8,
        idle_limit: Option<usize>,
    },
    InitialisationStarts,
    InitialisationEnds(InitialisationEnd),
    Disconnected(Master),
    Connected(Master),
    Asserted(Master),
    Released(Master),
    SclFalls,
    SclRises,
    SdaFalls,
    SdaRises,
    Hung,
    HungNoMore,
}
