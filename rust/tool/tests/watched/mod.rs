//! A capture of the independent generator, watched as the command does it. Each test uses some of this.
#![allow(dead_code)]

use gunwaleish::{Check, Part, Pins};
use gunwaleish_tool::device::Device;
use gunwaleish_tool::failure::Failure;
use gunwaleish_tool::samples::{Reader, Said};
use gunwaleish_tool::watch::{Finding, Found, State, Told, Wanted, Watching};
use model::rng::Rng;
use model::wire::{Played, ReadByte};
use model::Kind;

/// What was told, and the state at the end.
pub struct Watched {
    pub found: Vec<Found>,
    pub state: State,
}

#[derive(Default)]
struct Teller(Vec<Found>);

impl Told for Teller {
    fn found(&mut self, found: &Found) -> Result<(), Failure> {
        self.0.push(found.clone());
        Ok(())
    }

    fn goes_on(&mut self, _: &State) -> Result<(), Failure> {
        Ok(())
    }
}

pub fn part(kind: Kind) -> Part {
    match kind {
        Kind::Pca9641 => Part::Pca9641,
        Kind::Tpt29641 => Part::Tpt29641,
    }
}

/// How a capture is watched: its own device, the bus below, nothing promised.
pub fn wanted(played: &Played) -> Wanted {
    let (address, part) = (played.setting.address, part(played.setting.kind));
    let device = Device { address, pins: Pins::default(), part };
    Wanted { device, below: true, resync: false, promised: [None; 2] }
}

/// The bytes of a capture, in pieces of up to so many bytes.
pub fn watch_bytes(bytes: &[u8], rate: u64, wanted: Wanted, pieces: u64) -> Watched {
    let mut teller = Teller::default();
    let mut watching = Watching::new("a", wanted, &mut teller);
    let mut reader = Reader::new("a", Said { rate: Some(rate), channels: None });
    let mut rng = Rng::new(pieces);
    let mut rest = bytes;
    while !rest.is_empty() {
        let length = (rng.between(0, pieces) as usize).min(rest.len());
        reader.feed(&rest[..length], &mut watching).unwrap();
        rest = &rest[length..];
    }
    reader.end(&mut watching).unwrap();
    let state = watching.state.take().unwrap();
    Watched { found: teller.0, state }
}

pub fn watch_as(played: &Played, wanted: Wanted, pieces: u64) -> Watched {
    let rate = 1000 * played.setting.samples_per_tick;
    watch_bytes(&played.samples, rate, wanted, pieces)
}

pub fn watch(played: &Played, pieces: u64) -> Watched {
    watch_as(played, wanted(played), pieces)
}

impl Watched {
    /// The READs that were told: sample, controller, heard, expected, and whether it was overtaken.
    pub fn reads(&self) -> Vec<ReadByte> {
        let read = |check: &Check, overtaken: bool| ReadByte {
            sample: check.sample,
            master: check.master as usize,
            heard: check.heard,
            expected: check.expected,
            overtaken,
        };
        let told = |found: &Found| match &found.finding {
            Finding::Difference(check) => Some(read(check, false)),
            Finding::Overtaken(check) => Some(read(check, true)),
            _ => None,
        };
        self.found.iter().filter_map(told).collect()
    }

    /// The samples of the faults.
    pub fn faults(&self) -> Vec<u64> {
        let is = |found: &&Found| matches!(found.finding, Finding::Fault { .. });
        self.found.iter().filter(is).map(|found| found.sample).collect()
    }
}

/// The READs of a capture that are told.
pub fn told(played: &Played) -> Vec<ReadByte> {
    played.reads.iter().filter(|read| read.heard != read.expected).copied().collect()
}
