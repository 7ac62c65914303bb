//! A logic-analyser capture turned into events. Document 02, #104.
//!
//! Each bus is read for itself, from list to list: its samples give edges, its edges transfers, its
//! transfers events. Then the events of both buses are put in the order of their samples.

use std::collections::BTreeMap;

use crate::event::make::*;

pub const MOST_SAMPLES: usize = 32_768;

/// What the importer answers.
#[derive(Clone, Copy, Debug, PartialEq, Eq)]
pub struct Imported {
    /// 0, or the number of the refusal.
    pub number: u8,
    /// How many events were written. A refusal writes none.
    pub events: usize,
}

/// What a sample shows on one bus, seen with the sample before it.
#[derive(Clone, Copy, Debug, PartialEq, Eq)]
pub enum Edge {
    /// SCL rises. "A bit is SDA in the sample where SCL rises."
    Clock(u8),
    /// SDA falls, with SCL high in the sample before and in this one.
    Start,
    /// SDA rises, with SCL high in both.
    Stop,
}

/// What follows a START, up to the next condition.
#[derive(Clone, Debug, PartialEq, Eq)]
pub struct Transfer {
    /// The bytes, each with the sample of its ninth clock. The first is the address.
    pub bytes: Vec<(u8, usize)>,
    /// The clocks after the last byte, or after the START if there is no byte.
    pub clocks_left: usize,
    /// The condition that ends it and its sample. `None` is the capture's end.
    pub end: Option<(usize, Edge)>,
}

/// What a transfer is to a device.
#[derive(Clone, Copy, Debug, PartialEq, Eq)]
pub enum Purpose {
    GeneralCall,
    Write,
    Read,
    /// Another address, or no byte at all.
    Other,
}

/// Turns a capture into events for the device of this address. A refusal writes nothing, and bytes
/// past the events stay.
pub fn import_capture(samples: &[u8], address: u8, events: &mut [u8]) -> Imported {
    let bytes = match events_of(samples, address) {
        Ok(list) => list.concat(),
        Err(number) => return Imported { number, events: 0 },
    };
    if events.len() < bytes.len() {
        return Imported { number: 9, events: 0 };
    }
    events[..bytes.len()].copy_from_slice(&bytes);
    Imported { number: 0, events: bytes.len() / 4 }
}

/// "13 above 32,768 samples; 11 for the address; 12 a START or STOP inside a byte, or the capture
/// ending inside one". The 9 that follows is of the room.
pub fn events_of(samples: &[u8], address: u8) -> Result<Vec<[u8; 4]>, u8> {
    if samples.len() > MOST_SAMPLES {
        return Err(13);
    }
    if !(0x08..=0x77).contains(&address) {
        return Err(11);
    }
    let buses = [transfers(samples, 0), transfers(samples, 1)];
    if buses.iter().flatten().any(Transfer::breaks_a_byte) {
        return Err(12);
    }
    let mut by_sample: BTreeMap<usize, Vec<[u8; 4]>> = BTreeMap::new();
    for (master, bus) in buses.iter().enumerate() {
        for (sample, event) in bus_events(bus, master as u8, address) {
            by_sample.entry(sample).or_default().push(event);
        }
    }
    // Master 0 was listed first, so it comes first in each sample.
    Ok(by_sample.into_values().flat_map(at_one_sample).collect())
}

/// "Two data writes in one sample become PAIR; otherwise master 0 comes first."
fn at_one_sample(events: Vec<[u8; 4]>) -> Vec<[u8; 4]> {
    match events[..] {
        [[1, 0, v0, 0], [1, 1, v1, 0]] => vec![pair(v0, v1)],
        _ => events,
    }
}

/// The edges of a bus that mean something, each with its sample. "The first sample is only a
/// starting level; bits 4 to 7 are ignored."
pub fn edges(samples: &[u8], bus: usize) -> Vec<(usize, Edge)> {
    let scl = |sample: u8| (sample >> (2 * bus)) & 1;
    let sda = |sample: u8| (sample >> (2 * bus + 1)) & 1;
    let edge = |was: u8, is: u8| match (scl(was), scl(is), sda(was), sda(is)) {
        (0, 1, _, bit) => Some(Edge::Clock(bit)),
        (1, 1, 1, 0) => Some(Edge::Start),
        (1, 1, 0, 1) => Some(Edge::Stop),
        _ => None,
    };
    let pairs = samples.windows(2).zip(1..);
    pairs.filter_map(|(pair, place)| Some((place, edge(pair[0], pair[1])?))).collect()
}

/// The transfers of a bus. What lies outside START to STOP is in none of them.
pub fn transfers(samples: &[u8], bus: usize) -> Vec<Transfer> {
    let edges = edges(samples, bus);
    let is_clock = |at: &usize| matches!(edges[*at].1, Edge::Clock(_));
    let conditions: Vec<usize> = (0..edges.len()).filter(|at| !is_clock(at)).collect();
    let starts = (0..conditions.len()).filter(|&which| edges[conditions[which]].1 == Edge::Start);
    let transfer = |which: usize| {
        let next = conditions.get(which + 1).copied();
        let clocks = &edges[conditions[which] + 1..next.unwrap_or(edges.len())];
        let nines = clocks.chunks_exact(9);
        Transfer {
            clocks_left: nines.remainder().len(),
            bytes: nines.map(byte).collect(),
            end: next.map(|at| edges[at]),
        }
    };
    starts.map(transfer).collect()
}

/// A byte out of its nine clocks, highest bit first, and the sample of the ninth, whose own bit is
/// ignored.
fn byte(clocks: &[(usize, Edge)]) -> (u8, usize) {
    let bit = |edge: &(usize, Edge)| u8::from(edge.1 == Edge::Clock(1));
    let value = clocks[..8].iter().fold(0, |value, edge| 2 * value + bit(edge));
    (value, clocks[8].0)
}

impl Transfer {
    /// "One rising clock before a START or STOP belongs to that condition; from the second on it is
    /// inside a byte." So it is for the capture's end.
    pub fn breaks_a_byte(&self) -> bool {
        self.clocks_left >= 2
    }

    pub fn ends_in_stop(&self) -> bool {
        matches!(self.end, Some((_, Edge::Stop)))
    }

    /// "Transfers to other addresses are skipped, byte 00h as address gives GENERAL CALL".
    pub fn purpose(&self, address: u8) -> Purpose {
        match self.bytes.first() {
            Some((0x00, _)) => Purpose::GeneralCall,
            Some((first, _)) if *first == 2 * address => Purpose::Write,
            Some((first, _)) if *first == 2 * address + 1 => Purpose::Read,
            _ => Purpose::Other,
        }
    }

    /// The events of the bytes after the address, each at its ninth clock.
    fn events(&self, master: u8, address: u8) -> Vec<(usize, [u8; 4])> {
        let data = self.bytes.iter().skip(1).enumerate();
        let event = |(place, (value, sample)): (usize, &(u8, usize))| {
            let event = match (self.purpose(address), place) {
                (Purpose::GeneralCall, 0) => general_call(master, *value),
                (Purpose::Write, 0) => command(master, *value),
                (Purpose::Write, _) => write(master, *value),
                (Purpose::Read, _) => read(master),
                _ => return None,
            };
            Some((*sample, event))
        };
        data.filter_map(event).collect()
    }
}

/// The events of one bus, each with its sample. "STOP is given only after a COMMAND or READ since
/// that master's last STOP", so the transfers are taken from one STOP to the next.
pub fn bus_events(bus: &[Transfer], master: u8, address: u8) -> Vec<(usize, [u8; 4])> {
    let mut all = vec![];
    for talk in bus.split_inclusive(Transfer::ends_in_stop) {
        let events: Vec<(usize, [u8; 4])> =
            talk.iter().flat_map(|transfer| transfer.events(master, address)).collect();
        let opens = events.iter().any(|(_, event)| event[0] == 0 || event[0] == 2);
        all.extend(events);
        let end = talk.last().and_then(|transfer| transfer.end);
        if let (true, Some((sample, Edge::Stop))) = (opens, end) {
            all.push((sample, stop(master)));
        }
    }
    all
}
