//! The captures that are timed: nearly full ones, of up to 32,768 samples.

use model::capture::MOST_SAMPLES;
use model::capture_damage::densest;
use model::captures::{capture, Manner};
use model::rng::Rng;

pub struct Captures {
    pub name: &'static str,
    /// Each with its address.
    pub all: Vec<(Vec<u8>, u8)>,
}

/// So many captures of each kind. They are imported one after the other in each timing.
const CAPTURES: u64 = 8;

/// The last transfer of a random capture ends past the length that is asked for.
const LENGTH: usize = MOST_SAMPLES - 4096;

pub fn kinds() -> [Captures; 3] {
    [
        Captures { name: "a level a sample", all: random(3000, 1) },
        Captures { name: "up to 10 samples", all: random(4000, 10) },
        Captures {
            name: "densest",
            all: (0..CAPTURES)
                .map(|seed| (densest(&mut Rng::new(5000 + seed), 0x70, MOST_SAMPLES), 0x70))
                .collect(),
        },
    ]
}

/// Both buses talk by themselves, and a level lasts so many samples at most.
fn random(seed: u64, slowest: u64) -> Vec<(Vec<u8>, u8)> {
    let manner = Manner { slowest, twins: false, broken: 0 };
    let one = |place| {
        let made = capture(&mut Rng::new(seed + place), manner, LENGTH);
        (made.samples, made.address)
    };
    (0..CAPTURES).map(one).collect()
}
