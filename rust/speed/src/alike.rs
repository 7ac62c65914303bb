//! Events of all ten kinds, each kind as often as the others, most of them in sequence.
//!
//! A model device goes along. The next event is of the kind that has come least often so far; three times of
//! four only the kinds that the device would take now are asked. So a kind that is seldom in sequence, as a
//! PULSE, is as often there as the others, and refused more often.

use model::device::Device;
use model::event::make::*;
use model::part::Kind;
use model::phrases::Bytes;
use model::rng::Rng;

const KINDS: usize = 10;
/// The answer's number for an event out of sequence.
const OUT_OF_SEQUENCE: u8 = 4;
/// CONTR bytes: a request with and without connection, with initialisation, with the idle timer, and none.
const CONTR: [u8; 6] = [0x01, 0x05, 0x0D, 0x25, 0x85, 0x00];

pub fn kinds_alike(kind: Kind, seed: u64, length: usize) -> Vec<Bytes> {
    let mut rng = Rng::new(seed);
    let mut device = Device::power_up_of(kind);
    let mut seen = [0; KINDS];
    let mut events = Vec::with_capacity(length);
    while events.len() < length {
        let offered: [Bytes; KINDS] = std::array::from_fn(|kind| one_of(kind, &mut rng, &device));
        let only_taken = rng.percent(75);
        let asked =
            |kind: &usize| !only_taken || device.clone().step(offered[*kind])[0] != OUT_OF_SEQUENCE;
        let first = rng.below(KINDS as u64) as usize;
        let kinds = (first..first + KINDS).map(|kind| kind % KINDS);
        let Some(next) = kinds.filter(asked).min_by_key(|&kind| seen[kind]) else { continue };
        seen[next] += 1;
        device.step(offered[next]);
        events.push(offered[next]);
    }
    events
}

/// An event of this kind, with fields that suit the device where it has a choice of masters.
fn one_of(kind: usize, rng: &mut Rng, device: &Device) -> Bytes {
    let m = rng.below(2) as u8;
    let byte = written(rng, device, m);
    match kind {
        0 => command(m, rng.pick(&[0x81, 0x01, 0x83, 0x84, 0x86, 0x07, 0x02, 0x85])),
        1 => write(m, byte),
        2 => read(m),
        3 => stop(m),
        4 => pair(written(rng, device, 0), written(rng, device, 1)),
        5 => lines(rng.percent(80) as u8, rng.percent(80) as u8, rng.percent(80) as u8),
        6 => tick(),
        7 => pulse(rng.percent(30) as u8),
        8 => reset(),
        _ => general_call(m, rng.pick(&[0x06, 0x00, 0x04])),
    }
}

/// A byte for the register that the pointer of master m names.
fn written(rng: &mut Rng, device: &Device, m: u8) -> u8 {
    match device.masters[m as usize].pointer {
        1 => rng.pick(&CONTR),
        3 => rng.pick(&[0, 1, 20, 200]),
        _ => rng.byte(),
    }
}
