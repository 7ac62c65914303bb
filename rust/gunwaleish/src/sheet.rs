//! The order sheet: a box looked up on the board sheet and the house sheet, and the events that a
//! complete pair of sheets orders. Document 02, #106.
//!
//! A sheet has 15 bytes: three sections, reserve, priority and idle timer, each with the count 2 and
//! a box for each controller. A box is two bytes, its tick (0 or 1) and its value. `docs/SHEETS.md`
//! tells more.

use core::fmt;

use crate::layout::fours;
use crate::{boundary, Event, Master, Refusal};

/// The bytes of a sheet.
pub const SHEET_LENGTH: usize = 15;

/// The events that a complete pair of sheets orders: six for each controller.
pub const SHEET_EVENTS: usize = 12;

/// A section of a sheet. It has a box for each controller.
#[derive(Clone, Copy, Debug, PartialEq, Eq, Hash, PartialOrd, Ord)]
pub enum Section {
    /// 0: the reserve in ms, any byte. A ticked 0 orders a reserve without limit.
    Reserve,
    /// 1: priority, 0 or 1.
    Priority,
    /// 2: the idle timer, 0 off or 1 on.
    Idle,
}

impl Section {
    /// In the order in which a sheet has them.
    pub const ALL: [Section; 3] = [Section::Reserve, Section::Priority, Section::Idle];

    /// Its number, by which the library knows it.
    pub fn number(self) -> u8 {
        self as u8
    }

    /// The section of this number.
    pub fn of(number: u8) -> Option<Section> {
        Section::ALL.into_iter().find(|section| section.number() == number)
    }

    /// What a box of it is called on the form.
    pub fn name(self) -> &'static str {
        match self {
            Section::Reserve => "Downstream reserve, ms",
            Section::Priority => "Priority",
            Section::Idle => "Idle timer",
        }
    }
}

impl fmt::Display for Section {
    fn fmt(&self, f: &mut fmt::Formatter) -> fmt::Result {
        f.write_str(self.name())
    }
}

/// The two sheets of a pair. A box that is ticked on both is the board sheet's.
#[derive(Clone, Copy, Debug, PartialEq, Eq, Hash)]
pub enum Sheet {
    /// The board sheet, which is looked at first.
    Board,
    /// The house sheet, whose box counts where the board sheet's is not ticked.
    House,
}

impl fmt::Display for Sheet {
    fn fmt(&self, f: &mut fmt::Formatter) -> fmt::Result {
        f.write_str(match self {
            Sheet::Board => "board sheet",
            Sheet::House => "house sheet",
        })
    }
}

/// A box that was found. It is ticked on the sheet that it comes from.
#[derive(Clone, Copy, Debug, PartialEq, Eq, Hash)]
pub struct Found {
    /// The sheet that it comes from.
    pub sheet: Sheet,
    /// The byte of that sheet at which the box starts: its tick. The value is the byte after it.
    pub offset: usize,
    /// What the box orders. A reserve of 0 was ticked too, and is one without limit.
    pub value: u8,
}

/// Looks up a box: the board sheet's if it is ticked there, else the house sheet's.
///
/// Refusals, in this order, all of the board sheet before those of the house sheet: 5 under 15
/// bytes, 10 for a count, 3 for a box, 7 for bytes after the end; then 14 if the box is ticked on
/// neither. So an empty box never becomes a value, and a ticked 0 is one.
///
/// ```
/// use gunwaleish::{sheet_box, Master, Refusal, Section, Sheet};
///
/// // The board sheet ticks controller 0's reserve, and the house sheet all but the reserves.
/// let board = [2, 1, 50, 0, 0, 2, 0, 0, 0, 0, 2, 0, 0, 0, 0];
/// let house = [2, 0, 0, 0, 0, 2, 1, 0, 1, 1, 2, 1, 0, 1, 1];
/// let found = sheet_box(&board, &house, Section::Reserve, Master::Zero)?;
/// assert_eq!((found.sheet, found.offset, found.value), (Sheet::Board, 1, 50));
/// let empty = sheet_box(&board, &house, Section::Reserve, Master::One);
/// assert_eq!(empty, Err(Refusal::EmptyBox));
/// # Ok::<(), gunwaleish::Refusal>(())
/// ```
pub fn sheet_box(
    board: &[u8],
    house: &[u8],
    section: Section,
    controller: Master,
) -> Result<Found, Refusal> {
    let packed = boundary::sheet_box(board, house, section.number(), controller.number());
    let [number, sheet, low, high, ..] = packed.to_le_bytes();
    if let Some(refusal) = Refusal::of_sheets(number) {
        return Err(refusal);
    }
    let (sheet, bytes) = match sheet {
        1 => (Sheet::Board, board),
        2 => (Sheet::House, house),
        // The proved library never gives another.
        other => return Err(Refusal::Unknown(other)),
    };
    let offset = usize::from(u16::from_le_bytes([low, high]));
    // A box that is found stands on its sheet.
    let value = *bytes.get(offset + 1).ok_or(Refusal::Unknown(number))?;
    Ok(Found { sheet, offset, value })
}

/// Writes the twelve events that a complete pair of sheets orders into a lent buffer, four bytes
/// each, and gives their count.
///
/// Refusals: those of the sheets, as `sheet_box` has them; 14 if one of the six boxes is ticked on
/// neither sheet; 9 if the buffer has under 48 bytes. The buffer is untouched then. Bytes past the
/// events stay as they are.
pub fn sheet_events_into(board: &[u8], house: &[u8], events: &mut [u8]) -> Result<usize, Refusal> {
    let packed = boundary::sheet_events(board, house, events);
    Refusal::of_sheets(packed as u8).map_or(Ok((packed >> 8) as usize), Err)
}

/// The twelve events that a complete pair of sheets orders: for controller 0, then 1, its reserve is
/// written to RT and its request, with its priority and idle timer, to CONTR.
///
/// They fit a fresh device. To a controller that owns the bus the write of its reserve would be
/// acknowledged and not stored.
///
/// ```
/// # #[cfg(feature = "alloc")] {
/// use gunwaleish::{sheet_events, write_trace, Event, Master, Part, Pins, Refusal};
///
/// let board = [2, 1, 50, 1, 20, 2, 0, 0, 0, 0, 2, 0, 0, 0, 0];
/// let house = [2, 0, 0, 0, 0, 2, 1, 0, 1, 1, 2, 1, 0, 1, 1];
/// let events = sheet_events(&board, &house)?;
/// assert_eq!(events[1], Event::Write { master: Master::Zero, value: 50 });
/// assert_eq!(events[10], Event::Write { master: Master::One, value: 0xA1 });
/// let trace = write_trace(Pins::of_address(0x71)?, Part::Pca9641, &events)?;
/// assert_eq!(gunwaleish::run(&trace)?.answers[11].owner, Some(Master::Zero));
/// // The board sheet with the reserves left empty: no event.
/// let empty = [2, 0, 0, 0, 0, 2, 0, 0, 0, 0, 2, 0, 0, 0, 0];
/// assert_eq!(sheet_events(&empty, &house), Err(Refusal::EmptyBox));
/// # }
/// # Ok::<(), gunwaleish::Refusal>(())
/// ```
pub fn sheet_events(board: &[u8], house: &[u8]) -> Result<[Event; SHEET_EVENTS], Refusal> {
    let mut bytes = [0; 4 * SHEET_EVENTS];
    sheet_events_into(board, house, &mut bytes)?;
    let mut events = [Event::Tick; SHEET_EVENTS];
    events.iter_mut().zip(fours(&bytes)).for_each(|(event, four)| *event = four.into());
    Ok(events)
}
