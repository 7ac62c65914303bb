//! How long a controller can wait by a pair of order sheets.

use core::fmt;

use crate::{boundary, Master, Part, Refusal};

/// What two sheets promise a controller that waits for the bus. A tick is a millisecond.
///
/// It goes by what they order for the other controller, the holder. In all three the waiting one's
/// request stands, no reset comes, and the holder's RT is not written anew. `docs/SHEETS.md` has the
/// promise in full.
#[derive(Clone, Copy, Debug, PartialEq, Eq, Hash)]
pub enum Wait {
    /// Grade 1: bounded behind a live holder, one that sends its STOPs. Its reserve is 1 to 255.
    Live {
        /// The reserve and one tick, in which the holder sends its STOP: 2 to 256.
        ticks: u16,
    },
    /// Grade 2: bounded only behind a silent holder on an idle bus, and only while the holder's CONTR
    /// keeps its idle timer on. Its reserve is 00h, which is without limit.
    Silent {
        /// The part's idle limit, counted from the holder's grant: 101 for a PCA9641, 151 for a
        /// TPT29641.
        ticks: u16,
    },
    /// Grade 3: not bounded. The holder's reserve is 00h and its idle timer off, the setting of the
    /// incident.
    Unbounded,
}

impl Wait {
    /// Its grade, 1 to 3, by which the library knows it.
    pub fn grade(self) -> u8 {
        match self {
            Wait::Live { .. } => 1,
            Wait::Silent { .. } => 2,
            Wait::Unbounded => 3,
        }
    }

    /// How long at most, or nothing where there is no bound.
    pub fn ticks(self) -> Option<u16> {
        match self {
            Wait::Live { ticks } | Wait::Silent { ticks } => Some(ticks),
            Wait::Unbounded => None,
        }
    }
}

impl fmt::Display for Wait {
    fn fmt(&self, f: &mut fmt::Formatter) -> fmt::Result {
        match self {
            Wait::Live { ticks } => {
                write!(f, "at most {ticks} ms behind a holder that sends its STOPs")
            }
            Wait::Silent { ticks } => {
                write!(f, "at most {ticks} ms, and only behind a silent holder on an idle bus")
            }
            Wait::Unbounded => f.write_str("without limit"),
        }
    }
}

/// How long `controller` can wait by a complete pair of sheets, on this part.
///
/// Refusals: those of the sheets, as `sheet_box` has them; 14 if one of the six boxes is ticked on
/// neither sheet, whichever controller it is of.
///
/// ```
/// use gunwaleish::{sheet_wait, Master, Part, Refusal, Wait};
///
/// // The board sheet orders a reserve of 50 for controller 0, and 00h without the idle timer for 1.
/// let board = [2, 1, 50, 1, 0, 2, 0, 0, 0, 0, 2, 0, 0, 0, 0];
/// let house = [2, 0, 0, 0, 0, 2, 1, 0, 1, 1, 2, 1, 1, 1, 0];
/// let waits = Master::BOTH.map(|master| sheet_wait(&board, &house, master, Part::Pca9641));
/// assert_eq!(waits, [Ok(Wait::Unbounded), Ok(Wait::Live { ticks: 51 })]);
/// // An empty box is not 00h: there is no figure at all.
/// let empty = sheet_wait(&house, &house, Master::One, Part::Pca9641);
/// assert_eq!(empty, Err(Refusal::EmptyBox));
/// ```
pub fn sheet_wait(
    board: &[u8],
    house: &[u8],
    controller: Master,
    part: Part,
) -> Result<Wait, Refusal> {
    let packed = boundary::sheet_wait(board, house, controller.number(), part.number());
    let [number, grade, low, high, ..] = packed.to_le_bytes();
    if let Some(refusal) = Refusal::of_sheets(number) {
        return Err(refusal);
    }
    let ticks = u16::from_le_bytes([low, high]);
    match grade {
        1 => Ok(Wait::Live { ticks }),
        2 => Ok(Wait::Silent { ticks }),
        3 => Ok(Wait::Unbounded),
        // The proved library never gives another.
        other => Err(Refusal::Unknown(other)),
    }
}
