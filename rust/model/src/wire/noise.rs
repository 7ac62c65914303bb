//! What a bus has on it that is no transfer to the device: broken bytes, clocks outside transfers,
//! other devices, general calls, a bus that is held low. And damage to a capture that is there.

use super::script::{Item, Script};
use crate::rng::Rng;

/// Something that a capture would be refused for, or that says nothing.
pub fn talk(rng: &mut Rng, address: u8) -> Script {
    let cut =
        |rng: &mut Rng| Item::Cut { clocks: rng.between(2, 8) as usize, by_start: rng.percent(50) };
    match rng.below(8) {
        // The byte of an address is broken off; by a START at which a transfer begins at once.
        0 => vec![Item::Cut { clocks: rng.between(2, 8) as usize, by_start: false }],
        1 => vec![
            Item::Cut { clocks: rng.between(2, 8) as usize, by_start: true },
            Item::Write(vec![0x84]),
            Item::Read(1),
            Item::Stop,
        ],
        // A byte that is written is broken off, and the bus rests.
        2 => vec![Item::Write(vec![0x03, 0x02]), cut(rng), Item::Read(1), Item::Stop],
        3 => vec![Item::Write(vec![0x01]), cut(rng), cut(rng), Item::Write(vec![0x04]), Item::Stop],
        4 => vec![Item::Clocks(
            (0..rng.between(1, 20)).map(|_| rng.below(2) as u8).chain([1]).collect(),
        )],
        5 => vec![Item::HeldLow(rng.between(1, 3000))],
        6 => vec![
            Item::Other(other_byte(rng, address), vec![0x01; rng.below(3) as usize]),
            Item::Stop,
        ],
        _ => vec![Item::Call(vec![rng.pick(&[0x04, 0x00, 0xFF]), 0x06]), Item::Stop],
    }
}

/// A first byte that is neither 00h nor of this address.
fn other_byte(rng: &mut Rng, address: u8) -> u8 {
    loop {
        let byte = rng.byte();
        if byte != 0 && byte / 2 != address {
            return byte;
        }
    }
}

/// Glitches of one to three samples on one of the seven lines, so many of them.
pub fn glitched(rng: &mut Rng, samples: &[u8], glitches: usize) -> Vec<u8> {
    let mut noisy = samples.to_vec();
    for _ in 0..glitches.min(samples.len()) {
        let place = rng.below(noisy.len() as u64) as usize;
        let end = (place + rng.between(1, 3) as usize).min(noisy.len());
        let line = 1 << rng.below(7);
        noisy[place..end].iter_mut().for_each(|sample| *sample ^= line);
    }
    noisy
}
