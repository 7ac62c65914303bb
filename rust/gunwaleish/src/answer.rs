//! An answer's four bytes by their names. Document 01, "Answers and the trace", and document 02, #107.

use core::fmt;

use crate::Master;

/// What became of one event.
///
/// ```
/// use gunwaleish::Outcome;
///
/// assert_eq!(Outcome::of(4), Outcome::OutOfSequence);
/// assert!(Outcome::OutOfSequence.is_refused());
/// // A byte that is not acknowledged is no refusal.
/// assert!(!Outcome::NotAcknowledged.is_refused());
/// ```
#[derive(Clone, Copy, Debug, PartialEq, Eq, Hash)]
#[non_exhaustive]
pub enum Outcome {
    /// 0: the event had its effect, and every byte sent in it was acknowledged.
    Done,
    /// 1: a byte sent in it was not acknowledged. The event is not refused: what it does all the same
    /// was done.
    NotAcknowledged,
    /// 2: the first byte is no kind.
    UnknownKind,
    /// 3: a field is out of range, or one that is not used is not 0.
    FieldOutOfRange,
    /// 4: the event cannot come now.
    OutOfSequence,
    /// A number that document 01 does not have here. The proved library never gives one.
    Unknown(u8),
}

impl Outcome {
    /// The outcome of this number. One that document 01 does not have here is kept in `Unknown`.
    pub fn of(number: u8) -> Outcome {
        match number {
            0 => Outcome::Done,
            1 => Outcome::NotAcknowledged,
            2 => Outcome::UnknownKind,
            3 => Outcome::FieldOutOfRange,
            4 => Outcome::OutOfSequence,
            other => Outcome::Unknown(other),
        }
    }

    /// Document 01's number.
    pub fn number(self) -> u8 {
        match self {
            Outcome::Done => 0,
            Outcome::NotAcknowledged => 1,
            Outcome::UnknownKind => 2,
            Outcome::FieldOutOfRange => 3,
            Outcome::OutOfSequence => 4,
            Outcome::Unknown(number) => number,
        }
    }

    /// True if the event was refused, so that it changed nothing.
    pub fn is_refused(self) -> bool {
        !matches!(self, Outcome::Done | Outcome::NotAcknowledged)
    }
}

impl fmt::Display for Outcome {
    fn fmt(&self, f: &mut fmt::Formatter) -> fmt::Result {
        f.write_str(match self {
            Outcome::Done => "done",
            Outcome::NotAcknowledged => "not acknowledged",
            Outcome::UnknownKind => "unknown kind",
            Outcome::FieldOutOfRange => "field out of range",
            Outcome::OutOfSequence => "out of sequence",
            Outcome::Unknown(_) => "a number that document 01 does not have here",
        })
    }
}

/// On what ground the present claim was won. It is fixed when the claim is made.
#[derive(Clone, Copy, Debug, PartialEq, Eq, Hash)]
pub enum Ground {
    /// 1: the partner did not ask.
    Sole,
    /// 2: both asked, and the priorities differed.
    Priority,
    /// 3: both asked with equal priorities, and the partner was granted last, or nobody before.
    LastGranted,
}

impl Ground {
    /// The three grounds, in the order of their numbers.
    pub const ALL: [Ground; 3] = [Ground::Sole, Ground::Priority, Ground::LastGranted];

    /// Document 02's number.
    pub fn number(self) -> u8 {
        match self {
            Ground::Sole => 1,
            Ground::Priority => 2,
            Ground::LastGranted => 3,
        }
    }

    /// The ground of this number.
    pub fn of(number: u8) -> Option<Ground> {
        Ground::ALL.into_iter().find(|ground| ground.number() == number)
    }
}

impl fmt::Display for Ground {
    fn fmt(&self, f: &mut fmt::Formatter) -> fmt::Result {
        f.write_str(match self {
            Ground::Sole => "sole requester",
            Ground::Priority => "priority",
            Ground::LastGranted => "last granted",
        })
    }
}

/// What the device answers to one event. All but the outcome and the byte read show the device
/// after the step.
///
/// ```
/// use gunwaleish::{Answer, Ground, Master, Outcome};
///
/// // Master 0 reads CONTR after its grant: 07h.
/// let answer = Answer::from([0x00, 0x07, 0x25, 0x0C]);
/// assert_eq!((answer.outcome, answer.byte_read), (Outcome::Done, 0x07));
/// assert_eq!((answer.owner, answer.connected), (Some(Master::Zero), Some(Master::Zero)));
/// assert_eq!(answer.ground, Some(Ground::Sole));
/// assert!(answer.scl && answer.sda && !answer.int0 && !answer.int1);
/// ```
#[derive(Clone, Copy, Debug, PartialEq, Eq, Hash)]
#[non_exhaustive]
pub struct Answer {
    /// What became of the event: done, not acknowledged, or refused and on what ground.
    pub outcome: Outcome,
    /// The byte that a READ handed out, else 00.
    pub byte_read: u8,
    /// The granted master.
    pub owner: Option<Master>,
    /// The master whose switch is closed.
    pub connected: Option<Master>,
    /// An initialisation of the bus is running.
    pub initialising: bool,
    /// The ground of the present claim, from the claim on and as long as the grant lasts. `None` if
    /// nobody claims or owns the bus.
    pub ground: Option<Ground>,
    /// Interrupt output 0 is asserted.
    pub int0: bool,
    /// Interrupt output 1 is asserted.
    pub int1: bool,
    /// SCL is high.
    pub scl: bool,
    /// SDA is high.
    pub sda: bool,
}

/// What the third byte of an answer shows by itself. The fields are those of `Answer`.
#[derive(Clone, Copy, Debug, PartialEq, Eq, Hash)]
#[non_exhaustive]
pub struct Bus {
    /// The granted master.
    pub owner: Option<Master>,
    /// The master whose switch is closed. Only the owner's ever is.
    pub connected: Option<Master>,
    /// An initialisation of the bus is running, and the switch is open meanwhile.
    pub initialising: bool,
    /// The ground of the present claim; `None` if nobody claims or owns the bus. A ground without an
    /// owner is a claim that is not granted yet.
    pub ground: Option<Ground>,
}

impl From<u8> for Bus {
    fn from(byte: u8) -> Bus {
        Bus {
            owner: master(byte),
            connected: master(byte >> 2),
            initialising: byte & 0x10 != 0,
            ground: Ground::of(byte >> 5 & 3),
        }
    }
}

impl From<[u8; 4]> for Answer {
    fn from([outcome, byte_read, bus, pins]: [u8; 4]) -> Answer {
        let Bus { owner, connected, initialising, ground } = bus.into();
        Answer {
            outcome: Outcome::of(outcome),
            byte_read,
            owner,
            connected,
            initialising,
            ground,
            int0: pins & 0x01 != 0,
            int1: pins & 0x02 != 0,
            scl: pins & 0x04 != 0,
            sda: pins & 0x08 != 0,
        }
    }
}

/// Two bits that name a master: 0 none, 1 master 0, 2 master 1. The proved library never gives 3.
fn master(bits: u8) -> Option<Master> {
    match bits & 3 {
        1 => Some(Master::Zero),
        2 => Some(Master::One),
        _ => None,
    }
}
