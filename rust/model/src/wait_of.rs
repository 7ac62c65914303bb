//! How long a controller can wait by a pair of order sheets: the answer to the coordinator's question
//! "with these two sheets, how long can either controller wait, ever?"
//!
//! A controller waits behind the other one, so the boxes that answer are the other's.

use crate::part::Kind;
use crate::sheet::{judge, look_up, IDLE, PRIORITIES, RESERVE};

/// "Bounded behind a live holder."
pub const BOUNDED: u8 = 1;
/// "Only behind a silent one on an idle bus, and only while its CONTR keeps the timer on."
pub const BOUNDED_IF_SILENT: u8 = 2;
/// "Not bounded: reserve without limit and the timer off, which is the incident's own setting."
pub const NOT_BOUNDED: u8 = 3;

/// What the call answers. A refusal has grade and ticks 0.
#[derive(Clone, Copy, Debug, PartialEq, Eq)]
pub struct Wait {
    /// 0, or the number of the refusal.
    pub number: u8,
    /// 1 to 3, see above.
    pub grade: u8,
    /// After so many ticks it owns the bus; 0 where nothing bounds them.
    pub ticks: u32,
}

impl Wait {
    /// "Packed number + 256 * grade + 65536 * ticks."
    pub fn packed(self) -> u64 {
        u64::from(self.number) + 256 * u64::from(self.grade) + 65536 * u64::from(self.ticks)
    }
}

/// How long this controller can wait by these sheets, with a part of this kind.
pub fn wait_of(board: &[u8], house: &[u8], controller: u8, kind: u8) -> Wait {
    match graded(board, house, controller, kind) {
        Ok((grade, ticks)) => Wait { number: 0, grade, ticks },
        Err(number) => Wait { number, grade: 0, ticks: 0 },
    }
}

/// The grade and the ticks. The refusals are those of the events, board sheet first, "then 15 for the
/// controller, 3 for the kind, then 14", for any box that is ticked on neither sheet.
fn graded(board: &[u8], house: &[u8], controller: u8, kind: u8) -> Result<(u8, u32), u8> {
    judge(board)?;
    judge(house)?;
    if controller > 1 {
        return Err(15);
    }
    let kind = Kind::of(kind).ok_or(3)?;
    let value = |section: u8, of: u8| {
        let found = look_up(board, house, section, of);
        found.part.get(1).copied().ok_or(found.number)
    };
    for section in [RESERVE, PRIORITIES, IDLE] {
        value(section, 0)?;
        value(section, 1)?;
    }
    let other = 1 - controller;
    Ok(match (value(RESERVE, other)?, value(IDLE, other)?) {
        (0, 0) => (NOT_BOUNDED, 0),
        (0, _) => (BOUNDED_IF_SILENT, kind.idle_ticks() as u32),
        // One tick more than the reserve: the other may take that long for the STOP that grants.
        (reserve, _) => (BOUNDED, u32::from(reserve) + 1),
    })
}
