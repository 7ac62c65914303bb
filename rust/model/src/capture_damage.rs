//! Captures that are damaged, and those about the bounds of #104.

use crate::capture::MOST_SAMPLES;
use crate::pen::{samples_of, Pen};
use crate::rng::Rng;

/// Damages a capture in some way. What it then gives is for the model to say.
pub fn damaged(rng: &mut Rng, good: &[u8]) -> Vec<u8> {
    let mut samples = good.to_vec();
    let place = rng.below(samples.len() as u64) as usize;
    match rng.below(6) {
        0 => samples.truncate(place),
        1 => samples[place] ^= 1 << rng.below(4),
        2 => {
            samples.remove(place);
        }
        3 => {
            // SDA moves twice, or SCL does.
            let bit = 1 << rng.below(4);
            let end = (place + rng.between(1, 3) as usize).min(samples.len());
            samples[place..end].iter_mut().for_each(|sample| *sample ^= bit);
        }
        4 => {
            // A line is stuck from here on.
            let (bit, level) = (1 << rng.below(4), rng.below(2) as u8);
            let stuck = |sample: &mut u8| *sample = (*sample & !bit) | (bit * level);
            samples[place..].iter_mut().for_each(stuck);
        }
        _ => {
            samples.drain(..place);
        }
    }
    samples
}

/// Any samples. Most change one line only, so that some transfers begin.
pub fn any_samples(rng: &mut Rng, length: usize) -> Vec<u8> {
    let mut sample = rng.byte() & 0x0F;
    let mut samples = vec![];
    for _ in 0..length {
        samples.push(sample | (rng.byte() & 0xF0 & rng.byte()));
        sample = if rng.percent(80) { sample ^ (1 << rng.below(4)) } else { rng.byte() & 0x0F };
    }
    samples
}

/// Noise in the bits that are ignored.
pub fn with_noise(rng: &mut Rng, samples: &mut [u8]) {
    samples.iter_mut().for_each(|sample| *sample |= rng.byte() & 0xF0);
}

/// A capture of so many samples that gives as many events as there can be: on each bus one transfer
/// with two samples a clock, and a STOP right after its last byte.
pub fn densest(rng: &mut Rng, address: u8, length: usize) -> Vec<u8> {
    let mut bus = || {
        let mut pen = Pen::new(Rng::new(0), 1, 1, 1);
        pen.start(0);
        pen.byte(2 * address + rng.below(2) as u8, 0);
        while pen.levels.len() + 18 < length {
            pen.byte(rng.byte(), 0);
        }
        pen.stop(0);
        pen.levels
    };
    let (first, second) = (bus(), bus());
    let mut samples = samples_of([&first, &second]);
    lengthen(&mut samples, length);
    samples
}

/// Repeats the last sample until there are so many.
pub fn lengthen(samples: &mut Vec<u8>, length: usize) {
    let last = samples.last().copied().unwrap_or(0x0F);
    samples.resize(length.max(samples.len()), last);
}

/// What comes at the bound of a byte.
#[derive(Clone, Copy, Debug, PartialEq, Eq)]
pub enum Bound {
    Start,
    Stop,
    /// The capture ends with SCL high, or low.
    EndHigh,
    EndLow,
}

/// Every condition after so many clocks, from none to eight, on either bus: right after a START,
/// after the address, and after two data bytes; for each of these first bytes.
pub fn about_bytes(address: u8) -> Vec<Vec<u8>> {
    let mut all = vec![];
    for first in [2 * address, 2 * address + 1, 0x00, 0x01, (2 * address) ^ 0x10] {
        for bytes in [0, 1, 3] {
            for clocks in 0..9 {
                for bound in [Bound::Start, Bound::Stop, Bound::EndHigh, Bound::EndLow] {
                    let bus = about_a_byte(address, first, bytes, clocks, bound);
                    all.push(samples_of([&bus, &[3]]));
                    all.push(samples_of([&[3], &bus]));
                }
            }
        }
    }
    all
}

fn about_a_byte(address: u8, first: u8, bytes: usize, clocks: usize, bound: Bound) -> Vec<u8> {
    let mut pen = Pen::new(Rng::new(1), 1, 1, 1);
    // SDA is left so that the condition can follow without a clock.
    let ninth = u8::from(bound == Bound::Start);
    pen.start(0);
    (0..bytes).for_each(|place| {
        pen.byte(if place == 0 { first } else { 0x81 }, ninth);
    });
    match bound {
        Bound::Start => {
            pen.start(clocks);
        }
        Bound::Stop => {
            pen.stop(clocks);
        }
        Bound::EndHigh | Bound::EndLow => {
            (0..clocks).for_each(|_| {
                pen.clock(1);
            });
            if bound == Bound::EndLow {
                pen.level(0, 1);
            }
            return pen.levels;
        }
    }
    if bound == Bound::Stop {
        pen.start(0);
    }
    // What follows is a good transfer.
    pen.byte(2 * address, 0);
    pen.byte(0x03, 0);
    pen.byte(0x55, 0);
    pen.stop(0);
    pen.levels
}

/// A good capture made as long as a capture may be, and one sample longer.
pub fn about_the_most(good: &[u8]) -> [Vec<u8>; 2] {
    [MOST_SAMPLES, MOST_SAMPLES + 1].map(|length| {
        let mut samples = good.to_vec();
        lengthen(&mut samples, length);
        samples
    })
}
