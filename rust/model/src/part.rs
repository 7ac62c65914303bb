//! The two kinds of part, and the two things in which they differ. Document 02, #105.

/// The kind of part that is fitted. Its number is the one that a trace holds.
#[derive(Clone, Copy, Debug, PartialEq, Eq)]
pub enum Kind {
    /// 0, the part of source document 003.
    Pca9641,
    /// 1, the second-source part of source document 000.
    Tpt29641,
}

pub const BOTH_KINDS: [Kind; 2] = [Kind::Pca9641, Kind::Tpt29641];

impl Kind {
    /// "Kind, 0 (PCA9641) or 1". There is no kind for any other number.
    pub fn of(number: u8) -> Option<Kind> {
        BOTH_KINDS.into_iter().find(|kind| kind.number() == number)
    }

    pub fn number(self) -> u8 {
        match self {
            Kind::Pca9641 => 0,
            Kind::Tpt29641 => 1,
        }
    }

    /// The idle count stops here, and at this count the idle timer takes the bus away. 01 has 101;
    /// "its idle timer is 150 ms (loss and count stop at 151 here)".
    pub fn idle_ticks(self) -> i64 {
        match self {
            Kind::Pca9641 => 101,
            Kind::Tpt29641 => 151,
        }
    }

    /// Where the pointer goes after a written byte, with auto-increment. 01: it "rises and stays at
    /// 7"; #105: it "rolls from 7 to 0 on writes also".
    pub fn pointer_after_write(self, pointer: u8) -> u8 {
        match (self, pointer) {
            (Kind::Pca9641, 7) => 7,
            (Kind::Tpt29641, 7) => 0,
            _ => pointer + 1,
        }
    }
}
