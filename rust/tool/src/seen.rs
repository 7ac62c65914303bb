//! What a capture shows on both buses: its transfers, and for whom they are.
//!
//! This is for words alone: the events of a capture are the library's. A test holds it to the
//! independent model.

use std::collections::BTreeMap;

use gunwaleish::Master;

use crate::words::count;

/// The first byte of each transfer, bus by bus. A START without a whole byte after it is none.
#[derive(Clone, Debug, Default, PartialEq, Eq)]
pub struct Seen {
    pub samples: usize,
    pub first_bytes: [Vec<u8>; 2],
}

/// The first byte of a general call.
const GENERAL: u8 = 0x00;

/// A byte is eight bits and a clock for the acknowledgement.
const BITS: u8 = 8;

impl Seen {
    pub fn of(samples: &[u8]) -> Seen {
        let first_bytes = Master::BOTH.map(|bus| first_bytes(samples, bus));
        Seen { samples: samples.len(), first_bytes }
    }

    fn all(&self) -> impl Iterator<Item = u8> + '_ {
        self.first_bytes.iter().flatten().copied()
    }

    pub fn transfers(&self) -> usize {
        self.all().count()
    }

    /// The transfers for a device.
    pub fn of_device(&self, address: u8) -> usize {
        self.all().filter(|byte| byte / 2 == address).count()
    }

    /// The transfers that are neither for this device nor general calls.
    pub fn skipped(&self, address: u8) -> usize {
        self.all().filter(|&byte| byte / 2 != address && byte != GENERAL).count()
    }

    /// How often each address is there, the most often first: "71h 12 times, 2Eh twice".
    pub fn addresses(&self) -> String {
        let mut counts: BTreeMap<String, usize> = BTreeMap::new();
        for byte in self.all() {
            let name = match byte {
                GENERAL => "a general call".to_string(),
                _ => format!("{:02X}h", byte / 2),
            };
            *counts.entry(name).or_default() += 1;
        }
        let mut counts: Vec<(String, usize)> = counts.into_iter().collect();
        counts.sort_by_key(|(_, times)| std::cmp::Reverse(*times));
        let said = counts.into_iter().map(|(name, times)| format!("{name} {}", often(times)));
        said.collect::<Vec<_>>().join(", ")
    }

    /// What was seen, and what came of it for this device: a line for every import.
    pub fn summary(&self, address: u8, events: usize) -> String {
        let [bus0, bus1] = self.first_bytes.each_ref().map(Vec::len);
        let seen = match self.transfers() {
            0 => "no transfer".to_string(),
            all => format!(
                "{} (bus 0: {bus0}, bus 1: {bus1}): {}; {} skipped",
                count(all, "transfer"),
                self.addresses(),
                self.skipped(address)
            ),
        };
        format!("{}; {seen}; {}", count(self.samples, "sample"), count(events, "event"))
    }

    /// Why there is no event for this device.
    pub fn why_none(&self, address: u8) -> String {
        match (self.samples, self.transfers(), self.of_device(address)) {
            (0, ..) => "no sample".to_string(),
            (samples, 0, _) => format!(
                "no transfer in {}; bits 0 to 3 are to be SCL0, SDA0, SCL1 and SDA1",
                count(samples, "sample")
            ),
            (_, all, 0) => {
                let skipped = self.skipped(address);
                let calls =
                    if skipped < all { ", and no general call has a data byte" } else { "" };
                format!(
                    "no transfer for {address:02X}h; seen: {}; {} skipped{calls}",
                    self.addresses(),
                    count(skipped, "transfer")
                )
            }
            (_, _, own) => format!(
                "no event: {} for {address:02X}h, but without a data byte; seen: {}",
                count(own, "transfer"),
                self.addresses()
            ),
        }
    }
}

fn often(times: usize) -> String {
    match times {
        1 => "once".to_string(),
        2 => "twice".to_string(),
        more => format!("{more} times"),
    }
}

/// The first byte after each START of a bus, if its nine clocks come before the next condition.
fn first_bytes(samples: &[u8], bus: Master) -> Vec<u8> {
    let lines = |sample: u8| {
        let both = sample >> (2 * bus.number());
        (both & 1 != 0, both & 2 != 0)
    };
    let mut bytes = vec![];
    // The byte so far and its clocks; `None` outside a transfer, and after its first byte.
    let mut reading: Option<(u8, u8)> = None;
    for pair in samples.windows(2) {
        let ((scl_was, sda_was), (scl, sda)) = (lines(pair[0]), lines(pair[1]));
        reading = match (reading, scl_was, scl) {
            (_, true, true) if sda_was != sda => (!sda).then_some((0, 0)),
            (Some((byte, BITS)), false, true) => {
                bytes.push(byte);
                None
            }
            (Some((byte, clocks)), false, true) => Some((byte << 1 | u8::from(sda), clocks + 1)),
            (same, ..) => same,
        };
    }
    bytes
}
