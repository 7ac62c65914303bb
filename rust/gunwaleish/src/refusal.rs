//! Why a call was refused, by the numbers of documents 01 and 02.

use core::fmt;

/// A refusal of a whole call. The library keeps to the documents' numbers, and so does `number`.
/// Where a number says one thing of a trace and another of an order sheet, an image, a start-up
/// script, a shelf, totals or a listener, it has a name for each.
/// Later calls bring numbers of their own.
///
/// ```
/// use gunwaleish::{run_trace, Refusal};
///
/// // Two pins are missing, and all that comes after them.
/// let refusal = run_trace(&[4, 0, 0], &mut []).unwrap_err();
/// assert_eq!((refusal, refusal.number()), (Refusal::TraceCut, 5));
/// assert_eq!(refusal.to_string(), "refusal 5: cut: bytes are missing at the end");
/// ```
#[derive(Clone, Copy, Debug, PartialEq, Eq, Hash)]
#[non_exhaustive]
pub enum Refusal {
    /// 3: the kind of part is neither 0 nor 1.
    NoSuchPart,
    /// 5: the trace ends too early, or event bytes do not come in fours. A trace from before it had
    /// a kind of part ends too early by two bytes.
    TraceCut,
    /// 6: there are more than 4,096 events.
    TooManyEvents,
    /// 7: there are bytes after the trace's end.
    BytesAfterEnd,
    /// 8: a pin code is above 3, or the strapping has no address.
    NoSuchStrapping,
    /// 9: the buffer is too short. Answers need four bytes an event, so do the events of a capture,
    /// and a trace nine more. Listed orders need a byte each.
    TooLittleRoom,
    /// 10: a section's count is wrong: that of the pins, the first byte, is not 4, or that of the
    /// kind of part is not 1.
    WrongCount,
    /// 11: the address is not one of 08h to 77h.
    AddressOutside,
    /// 12: a START or STOP stands inside a byte of the capture, or the capture ends inside one.
    ByteCut,
    /// 13: the capture has more than 32,768 samples.
    TooManySamples,
    /// 3: of an order sheet: a tick, or a priority's or idle timer's value, is neither 0 nor 1, or a
    /// box that is not ticked has a value.
    BadBox,
    /// 5: an order sheet has under 15 bytes.
    SheetCut,
    /// 7: an order sheet has bytes after its 15.
    BytesAfterSheet,
    /// 10: a section of an order sheet does not begin with the count 2.
    WrongBoxCount,
    /// 14: a box is empty: ticked neither on the board sheet nor on the house sheet.
    EmptyBox,
    /// 6: a start-up script has more than six events.
    LongScript,
    /// 15: an order sheet has no such section or controller. `sheet_box` takes those that there
    /// are, so only a caller of `boundary` meets it.
    NoSuchBox,
    /// 9: an image of a device has not 38 bytes.
    OtherLength,
    /// 16: a field of an image is outside the range that a run from power-up gives it.
    ImageOutOfRange,
    /// 5: a shelf has no record.
    EmptyRow,
    /// 6: a shelf has more than 16 records.
    LongRow,
    /// 9: the bytes of a shelf's row are not 39 for each record.
    OtherRowLength,
    /// 3: an advance is by more than 65,535 ticks.
    TooManyTicks,
    /// 6: totals of the bus share are over 65,535 traces, or two of them over more together.
    TooManyTraces,
    /// 9: a listener has not 142 bytes.
    OtherWatchLength,
    /// 16: a field of a listener is outside its range.
    WatchOutOfRange,
    /// 17: two records of a shelf have the same address.
    EqualAddresses,
    /// 18: the address or place that is named is not in the shelf's row.
    NotInRow,
    /// A number that no document has here. The proved library never gives one. It
    /// stands here so that nothing has to panic if some other library is linked in its place.
    Unknown(u8),
}

impl Refusal {
    /// The refusal of this number. 0 is no refusal.
    pub(crate) fn of(number: u8) -> Option<Refusal> {
        Some(match number {
            0 => return None,
            3 => Refusal::NoSuchPart,
            5 => Refusal::TraceCut,
            6 => Refusal::TooManyEvents,
            7 => Refusal::BytesAfterEnd,
            8 => Refusal::NoSuchStrapping,
            9 => Refusal::TooLittleRoom,
            10 => Refusal::WrongCount,
            11 => Refusal::AddressOutside,
            12 => Refusal::ByteCut,
            13 => Refusal::TooManySamples,
            14 => Refusal::EmptyBox,
            15 => Refusal::NoSuchBox,
            16 => Refusal::ImageOutOfRange,
            17 => Refusal::EqualAddresses,
            18 => Refusal::NotInRow,
            other => Refusal::Unknown(other),
        })
    }

    /// The refusal of this number by a call with order sheets. 0 is no refusal.
    pub(crate) fn of_sheets(number: u8) -> Option<Refusal> {
        match number {
            3 => Some(Refusal::BadBox),
            5 => Some(Refusal::SheetCut),
            7 => Some(Refusal::BytesAfterSheet),
            10 => Some(Refusal::WrongBoxCount),
            _ => Refusal::of(number),
        }
    }

    /// The refusal of this number by a call with an image. 0 is no refusal.
    pub(crate) fn of_image(number: u8) -> Option<Refusal> {
        match number {
            9 => Some(Refusal::OtherLength),
            _ => Refusal::of(number),
        }
    }

    /// The refusal of this number by a call with a shelf's row. 0 is no refusal.
    pub(crate) fn of_row(number: u8) -> Option<Refusal> {
        match number {
            5 => Some(Refusal::EmptyRow),
            6 => Some(Refusal::LongRow),
            9 => Some(Refusal::OtherRowLength),
            _ => Refusal::of(number),
        }
    }

    /// The refusal of this number by a call with a listener. 0 is no refusal.
    pub(crate) fn of_watch(number: u8) -> Option<Refusal> {
        match number {
            9 => Some(Refusal::OtherWatchLength),
            16 => Some(Refusal::WatchOutOfRange),
            _ => Refusal::of(number),
        }
    }

    /// The refusal of this number by a call with start-up scripts. 0 is no refusal.
    pub(crate) fn of_scripts(number: u8) -> Option<Refusal> {
        match number {
            6 => Some(Refusal::LongScript),
            _ => Refusal::of(number),
        }
    }

    /// The document's number.
    pub fn number(self) -> u8 {
        match self {
            Refusal::NoSuchPart | Refusal::BadBox | Refusal::TooManyTicks => 3,
            Refusal::TraceCut | Refusal::SheetCut | Refusal::EmptyRow => 5,
            Refusal::TooManyEvents
            | Refusal::LongScript
            | Refusal::LongRow
            | Refusal::TooManyTraces => 6,
            Refusal::BytesAfterEnd | Refusal::BytesAfterSheet => 7,
            Refusal::NoSuchStrapping => 8,
            Refusal::TooLittleRoom
            | Refusal::OtherLength
            | Refusal::OtherRowLength
            | Refusal::OtherWatchLength => 9,
            Refusal::WrongCount | Refusal::WrongBoxCount => 10,
            Refusal::AddressOutside => 11,
            Refusal::ByteCut => 12,
            Refusal::TooManySamples => 13,
            Refusal::EmptyBox => 14,
            Refusal::NoSuchBox => 15,
            Refusal::ImageOutOfRange | Refusal::WatchOutOfRange => 16,
            Refusal::EqualAddresses => 17,
            Refusal::NotInRow => 18,
            Refusal::Unknown(number) => number,
        }
    }
}

impl Refusal {
    /// What it says, without its number.
    fn words(self) -> &'static str {
        use Refusal::*;
        match self {
            NoSuchPart => "the kind of part is neither 0, PCA9641, nor 1, TPT29641",
            TraceCut => "cut: bytes are missing at the end",
            TooManyEvents => "there are more than 4,096 events",
            BytesAfterEnd => "there are bytes after the trace's end",
            NoSuchStrapping => "a pin code is above 3, or the strapping has no address",
            TooLittleRoom => "the buffer is too short for what is to be written",
            WrongCount => "the count of the pins is not 4, or that of the kind of part is not 1",
            AddressOutside => "the address is not one of 08h to 77h",
            ByteCut => "a START or STOP inside a byte, or the capture ends inside one",
            TooManySamples => "the capture has more than 32,768 samples",
            BadBox => "a tick or value is out of range, or a box that is not ticked has a value",
            SheetCut => "the sheet has under 15 bytes",
            BytesAfterSheet => "there are bytes after the sheet's end",
            WrongBoxCount => "a section's count is not 2, the boxes of two controllers",
            LongScript => "a start-up script has more than six events",
            EmptyBox => "a box is ticked on neither sheet, and an empty box is no value",
            NoSuchBox => "a sheet has no such section or controller",
            OtherLength => "the image of a device has 38 bytes, and these are not so many",
            ImageOutOfRange => {
                "a field of the image has a value that no run from power-up gives it"
            }
            OtherWatchLength => "a listener has 142 bytes, and these are not so many",
            WatchOutOfRange => "a field of the listener has a value that no samples give it",
            EmptyRow => "the shelf has no record",
            LongRow => "the shelf has more than 16 records",
            TooManyTicks => "an advance goes 65,535 ticks at most",
            TooManyTraces => "the totals are over 65,535 traces, and no more fit",
            OtherRowLength => "a shelf's row has 39 bytes for each record",
            EqualAddresses => "two records of the shelf have the same address",
            NotInRow => "the address or place is not in the shelf's row",
            Unknown(_) => "the library gave a number that no document has here",
        }
    }
}

impl fmt::Display for Refusal {
    fn fmt(&self, f: &mut fmt::Formatter) -> fmt::Result {
        write!(f, "refusal {}: {}", self.number(), self.words())
    }
}

impl core::error::Error for Refusal {}
