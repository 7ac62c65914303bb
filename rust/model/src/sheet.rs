//! The order sheet: a box looked up on the board sheet and the house sheet, and the events that a
//! complete pair of sheets comes to. Document 02, #106.

use crate::device::{IDLE_TIMER_DIS, LOCK_REQ, PRIORITY};
use crate::event::make::*;

/// Three sections of a count byte and two boxes of two bytes.
pub const SHEET_LENGTH: usize = 15;
/// COMMAND, WRITE and STOP, twice for each of two masters.
pub const SHEET_EVENTS: usize = 12;

/// The sections, in order.
pub const RESERVE: u8 = 0;
pub const PRIORITIES: u8 = 1;
pub const IDLE: u8 = 2;

#[derive(Clone, Copy, Debug, PartialEq, Eq)]
pub enum Sheet {
    Board,
    House,
}

/// What a lookup answers.
#[derive(Clone, Copy, Debug, PartialEq, Eq)]
pub struct Found<'a> {
    /// 0, or the number of the refusal.
    pub number: u8,
    /// The sheet that the part is of, and where on it the part begins.
    pub sheet: Sheet,
    pub offset: usize,
    /// The box, tick and value. A refusal hands back no byte of it.
    pub part: &'a [u8],
}

/// What the call for the events answers.
#[derive(Clone, Copy, Debug, PartialEq, Eq)]
pub struct Ordered {
    /// 0, or the number of the refusal.
    pub number: u8,
    /// How many events were written. A refusal writes none.
    pub events: usize,
}

/// "Looking up a box takes the board sheet's if ticked, else the house sheet's, and hands back that
/// box's part of the sheet it came from." A refusal's part "is then empty, the front of the board
/// sheet", also where the house sheet is refused.
pub fn look_up<'a>(board: &'a [u8], house: &'a [u8], section: u8, controller: u8) -> Found<'a> {
    match place_of(board, house, section, controller) {
        Err(number) => Found { number, sheet: Sheet::Board, offset: 0, part: &board[..0] },
        Ok((sheet, offset)) => {
            let bytes = match sheet {
                Sheet::Board => board,
                Sheet::House => house,
            };
            Found { number: 0, sheet, offset, part: &bytes[offset..offset + 2] }
        }
    }
}

/// The sheet and the offset of a box. The refusals of both sheets come first, "then 15 no such
/// section or controller, then 14 unticked in both".
fn place_of(board: &[u8], house: &[u8], section: u8, controller: u8) -> Result<(Sheet, usize), u8> {
    judge(board)?;
    judge(house)?;
    if section > IDLE || controller > 1 {
        return Err(15);
    }
    let offset = offset_of(section, controller);
    if board[offset] == 1 {
        Ok((Sheet::Board, offset))
    } else if house[offset] == 1 {
        Ok((Sheet::House, offset))
    } else {
        Err(14)
    }
}

/// A section is a count byte and a box for each controller.
pub fn offset_of(section: u8, controller: u8) -> usize {
    5 * usize::from(section) + 1 + 2 * usize::from(controller)
}

/// "5 under 15 bytes, 10 wrong count, 3 a tick or value out of range or an unticked value not 0, 7
/// bytes after the end". Each is of the whole sheet.
pub fn judge(sheet: &[u8]) -> Result<(), u8> {
    if sheet.len() < SHEET_LENGTH {
        return Err(5);
    }
    let sections = || sheet[..SHEET_LENGTH].chunks(5).zip(RESERVE..);
    if sections().any(|(section, _)| section[0] != 2) {
        return Err(10);
    }
    let is_good = |section: u8, tick: u8, value: u8| match tick {
        0 => value == 0,
        1 => section == RESERVE || value <= 1,
        _ => false,
    };
    let all_good = |section: &[u8], name: u8| {
        is_good(name, section[1], section[2]) && is_good(name, section[3], section[4])
    };
    if !sections().all(|(section, name)| all_good(section, name)) {
        return Err(3);
    }
    if sheet.len() > SHEET_LENGTH {
        return Err(7);
    }
    Ok(())
}

/// Writes the twelve events of a complete pair of sheets. "For the events 9 comes last, under 48
/// bytes; a refusal writes nothing." Bytes past 48 stay.
pub fn sheet_events(board: &[u8], house: &[u8], events: &mut [u8]) -> Ordered {
    let bytes = match events_of_sheets(board, house) {
        Ok(list) => list.concat(),
        Err(number) => return Ordered { number, events: 0 },
    };
    if events.len() < bytes.len() {
        return Ordered { number: 9, events: 0 };
    }
    events[..bytes.len()].copy_from_slice(&bytes);
    Ordered { number: 0, events: SHEET_EVENTS }
}

/// "For master 0, then 1, COMMAND 03h, WRITE of its reserve, STOP, COMMAND 01h, WRITE of 01h plus
/// 80h if priority and 20h if idle, STOP." A box that is ticked on neither sheet is 14.
pub fn events_of_sheets(board: &[u8], house: &[u8]) -> Result<Vec<[u8; 4]>, u8> {
    let value = |section: u8, controller: u8| {
        let found = look_up(board, house, section, controller);
        if found.number == 0 {
            Ok(found.part[1])
        } else {
            Err(found.number)
        }
    };
    let mut events = vec![];
    for m in [0, 1] {
        let mut contr = LOCK_REQ;
        if value(PRIORITIES, m)? == 1 {
            contr |= PRIORITY;
        }
        if value(IDLE, m)? == 1 {
            contr |= IDLE_TIMER_DIS;
        }
        events.extend([command(m, 0x03), write(m, value(RESERVE, m)?), stop(m)]);
        events.extend([command(m, 0x01), write(m, contr), stop(m)]);
    }
    Ok(events)
}
