//! A trace: its sections and its refusals in their order.

const MOST_EVENTS: usize = 4096;

/// The kind of part: the idle count's end and the rule of the write pointer go by it.
#[derive(Clone, Copy, Debug, PartialEq, Eq)]
pub enum Kind {
    Pca9641,
    Tpt29641,
}

impl Kind {
    /// The idle count at which the idle timer ends a grant, and at which it stops.
    pub fn idle_limit(self) -> u8 {
        match self {
            Kind::Pca9641 => 101,
            Kind::Tpt29641 => 151,
        }
    }

    /// What a pointer past 7 is after a written byte.
    pub fn past_7(self) -> u8 {
        match self {
            Kind::Pca9641 => 7,
            Kind::Tpt29641 => 0,
        }
    }
}

/// What is told of an accepted trace.
#[derive(Clone, Copy, Debug, PartialEq, Eq)]
pub struct Report {
    pub address: u8,
    pub events: usize,
    pub kind: Kind,
}

/// The report and the bytes of the events, or the number of the refusal.
pub fn read(trace: &[u8], room: usize) -> Result<(Report, &[u8]), u8> {
    let (&pins, rest) = match trace {
        [] => return Err(5),
        [4, rest @ ..] => rest.split_first_chunk::<4>().ok_or(5)?,
        _ => return Err(10),
    };
    let address = address_of(pins).ok_or(8)?;
    let (&count, rest) = rest.split_first_chunk::<2>().ok_or(5)?;
    let n = usize::from(u16::from_le_bytes(count));
    if n > MOST_EVENTS {
        return Err(6);
    }
    let (events, section) = rest.split_at_checked(4 * n).ok_or(5)?;
    let kind = match section {
        [] | [1] => return Err(5),
        [1, 0] => Kind::Pca9641,
        [1, 1] => Kind::Tpt29641,
        [1, 0 | 1, ..] => return Err(7),
        [1, ..] => return Err(3),
        _ => return Err(10),
    };
    match room < 4 * n {
        true => Err(9),
        false => Ok((
            Report {
                address,
                events: n,
                kind,
            },
            events,
        )),
    }
}

/// The class of AD2 AD1 AD0 as a number, a resistor counting 1, gives the first address of eight.
fn address_of(pins: [u8; 4]) -> Option<u8> {
    let [ad3, ad2, ad1, ad0] = pins;
    if ad3 > 1 || ad2 > 3 || ad1 > 3 || ad0 > 3 {
        return None;
    }
    let low = (ad2 & 1) << 2 | (ad1 & 1) << 1 | ad0 & 1;
    match (((ad2 >> 1) << 2 | (ad1 >> 1) << 1 | ad0 >> 1), ad3) {
        (0, 0) => Some(0x70 | low),
        (0, _) | (1, 0) => None,
        (class, _) => Some((class - 1) << 4 | ad3 << 3 | low),
    }
}
