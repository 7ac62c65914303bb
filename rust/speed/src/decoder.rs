//! A plain decoder of captures in Rust: one pass over the samples, a state for each bus, and the
//! events in a list that is copied into the lent buffer when nothing is refused. So it keeps the
//! promise of the proved call: a refused capture leaves the buffer as it was.

use model::capture::MOST_SAMPLES;
use model::event::make::*;

/// Which byte comes next on a bus.
#[derive(Clone, Copy, PartialEq, Eq)]
enum Next {
    /// The bus is outside START to STOP.
    None,
    Address,
    Command,
    Write,
    Read,
    Call,
    /// A byte that gives nothing.
    Skipped,
}

#[derive(Clone, Copy)]
struct Bus {
    master: u8,
    next: Next,
    clocks: u8,
    value: u8,
    owes_stop: bool,
}

/// Gives the count of events or the number of the refusal.
pub fn import_capture(samples: &[u8], address: u8, events: &mut [u8]) -> Result<usize, u8> {
    if samples.len() > MOST_SAMPLES {
        return Err(13);
    }
    if !(0x08..=0x77).contains(&address) {
        return Err(11);
    }
    let list = decoded(samples, address).ok_or(12)?;
    let room = events.get_mut(..4 * list.len()).ok_or(9)?;
    for (place, event) in room.chunks_exact_mut(4).zip(&list) {
        place.copy_from_slice(event);
    }
    Ok(list.len())
}

/// `None` if a START, a STOP or the capture's end stands inside a byte.
fn decoded(samples: &[u8], address: u8) -> Option<Vec<[u8; 4]>> {
    let mut list = Vec::with_capacity(samples.len() / 9);
    let mut buses = [Bus::idle(0), Bus::idle(1)];
    let mut was = samples.first().map_or(0, |sample| sample & 15);
    for sample in samples {
        let is = sample & 15;
        if is == was {
            continue;
        }
        let first = buses[0].hear(was & 3, is & 3, address)?;
        let second = buses[1].hear(was >> 2, is >> 2, address)?;
        match (first, second) {
            (Some([1, 0, v0, 0]), Some([1, 1, v1, 0])) => list.push(pair(v0, v1)),
            _ => list.extend(first.into_iter().chain(second)),
        }
        was = is;
    }
    buses.iter().all(|bus| !bus.is_inside_a_byte()).then_some(list)
}

impl Bus {
    fn idle(master: u8) -> Bus {
        Bus { master, next: Next::None, clocks: 0, value: 0, owes_stop: false }
    }

    fn is_inside_a_byte(&self) -> bool {
        self.next != Next::None && self.clocks >= 2
    }

    /// Two samples after each other: bit 0 is SCL, bit 1 SDA. `None` if a byte is cut.
    #[inline(always)]
    fn hear(&mut self, was: u8, is: u8, address: u8) -> Option<Option<[u8; 4]>> {
        let cut = self.is_inside_a_byte();
        match (was & 1, is & 1, was >> 1, is >> 1) {
            (0, 1, _, bit) => Some(self.clock(bit, address)),
            (1, 1, 1, 0) if !cut => {
                (self.next, self.clocks) = (Next::Address, 0);
                Some(None)
            }
            (1, 1, 0, 1) if !cut => {
                (self.next, self.clocks) = (Next::None, 0);
                let owed = std::mem::take(&mut self.owes_stop);
                Some(owed.then(|| stop(self.master)))
            }
            (1, 1, 1, 0) | (1, 1, 0, 1) => None,
            _ => Some(None),
        }
    }

    #[inline(always)]
    fn clock(&mut self, bit: u8, address: u8) -> Option<[u8; 4]> {
        if self.next == Next::None {
            return None;
        }
        if self.clocks < 8 {
            self.value = self.value << 1 | bit;
            self.clocks += 1;
            return None;
        }
        self.clocks = 0;
        self.byte(address)
    }

    fn byte(&mut self, address: u8) -> Option<[u8; 4]> {
        let (next, event) = match self.next {
            Next::Address => (addressed(self.value, address), None),
            Next::Command => (Next::Write, Some(command(self.master, self.value))),
            Next::Write => (Next::Write, Some(write(self.master, self.value))),
            Next::Read => (Next::Read, Some(read(self.master))),
            Next::Call => (Next::Skipped, Some(general_call(self.master, self.value))),
            other => (other, None),
        };
        self.owes_stop |= matches!(self.next, Next::Command | Next::Read);
        self.next = next;
        event
    }
}

fn addressed(byte: u8, address: u8) -> Next {
    match byte {
        0 => Next::Call,
        _ if byte == 2 * address => Next::Command,
        _ if byte == 2 * address + 1 => Next::Read,
        _ => Next::Skipped,
    }
}
