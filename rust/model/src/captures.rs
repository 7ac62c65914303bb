//! Seeded random captures: good ones, damaged ones, the densest there are, and those about the
//! bounds of #104.

use crate::event::make::*;
use crate::pen::{samples_of, Pen};
use crate::rng::Rng;

/// A capture, the address it is for, and what the maker of a good one meant each bus to say.
#[derive(Clone, Debug)]
pub struct Capture {
    pub samples: Vec<u8>,
    pub address: u8,
    /// Each event with its sample.
    pub meant: [Vec<(usize, [u8; 4])>; 2],
}

/// One transfer: what it is to the device, and its bytes after the address.
#[derive(Clone, Copy, Debug, PartialEq, Eq)]
enum Aim {
    Write,
    Read,
    GeneralCall,
    /// Another first byte.
    Other(u8),
}

#[derive(Clone, Debug)]
struct Transfer {
    aim: Aim,
    data: Vec<u8>,
    /// Every ninth bit of it.
    ninth: u8,
    /// The clocks before its START, and before the STOP if it is the last one of a talk.
    clocks: [usize; 2],
}

/// Transfers from a free bus to the next STOP: all but the first begin with a repeated START.
type Talk = Vec<Transfer>;

/// How a random capture is made.
#[derive(Clone, Copy, Debug)]
pub struct Manner {
    /// The most samples that a level lasts.
    pub slowest: u64,
    /// Both buses say the same number of bytes at the same samples.
    pub twins: bool,
    /// In so many cases of a hundred a START or STOP has two clocks or more before it.
    pub broken: u64,
}

pub fn any_manner(rng: &mut Rng) -> Manner {
    Manner { slowest: rng.pick(&[1, 1, 2, 3, 5]), twins: rng.percent(50), broken: 0 }
}

/// A random capture of about so many samples, for a random address.
pub fn capture(rng: &mut Rng, manner: Manner, length: usize) -> Capture {
    let address = rng.between(0x08, 0x77) as u8;
    let timing = rng.below(1 << 31);
    let mut meant = [vec![], vec![]];
    let mut drawn: Vec<Vec<u8>> = vec![];
    let mut first: Vec<Talk> = vec![];
    for (bus, events) in meant.iter_mut().enumerate() {
        let seed = if manner.twins { timing } else { timing + bus as u64 };
        // A bus that begins low comes from a transfer that the capture did not see.
        let free = manner.twins || rng.percent(85);
        let (scl, sda) = if free { (1, 1) } else { (0, rng.below(2) as u8) };
        let mut pen = Pen::new(Rng::new(seed), manner.slowest, scl, sda);
        let mut talks = 0;
        while pen.levels.len() < length {
            let talk = match first.get(talks) {
                Some(talk) if manner.twins => twin(rng, talk, address),
                _ => talk(rng, manner, address),
            };
            if !manner.twins {
                outside(rng, &mut pen);
            }
            events.extend(draw(&mut pen, &talk, bus as u8, address));
            pen.rest(if manner.twins { 2 } else { rng.pick(&[0, 0, 1, 2, 7, 18, 36]) });
            talks += 1;
            if bus == 0 {
                first.push(talk);
            }
        }
        drawn.push(pen.levels);
    }
    Capture { samples: samples_of([&drawn[0], &drawn[1]]), address, meant }
}

/// What a bus may do outside START to STOP: clocks, and a STOP that ends nothing.
fn outside(rng: &mut Rng, pen: &mut Pen) {
    if rng.percent(20) {
        (0..rng.between(1, 12)).for_each(|_| {
            pen.clock(rng.below(2) as u8);
        });
        if rng.percent(50) {
            pen.stop(rng.below(3) as usize);
        }
    }
}

fn talk(rng: &mut Rng, manner: Manner, address: u8) -> Talk {
    let transfers = rng.pick(&[1, 1, 1, 2, 2, 3]);
    (0..transfers).map(|_| transfer(rng, manner, address)).collect()
}

fn transfer(rng: &mut Rng, manner: Manner, address: u8) -> Transfer {
    let aim = match rng.below(10) {
        0..=4 => Aim::Write,
        5..=6 => Aim::Read,
        7 => Aim::GeneralCall,
        _ => Aim::Other(other_byte(rng, address)),
    };
    let data = (0..rng.pick(&[0, 1, 2, 2, 3, 3, 4, 9])).map(|_| data_byte(rng)).collect();
    let clocks = [0, 1].map(|_| match rng.percent(manner.broken) {
        true => rng.pick(&[2, 2, 3, 5, 8]),
        false => rng.below(2) as usize,
    });
    Transfer { aim, data, ninth: rng.below(2) as u8, clocks }
}

/// Often the bytes that a device makes most of: pointers, a request, a soft reset.
fn data_byte(rng: &mut Rng) -> u8 {
    let any = rng.byte();
    rng.pick(&[0x00, 0x01, 0x05, 0x06, 0x81, 0xFF, any, any])
}

/// A first byte that is neither 00h nor of this address. 01h is one of them.
fn other_byte(rng: &mut Rng, address: u8) -> u8 {
    let near = [1, 2, 3, 2 * address - 1, 2 * address + 2, (2 * address) ^ 0x80, rng.byte()];
    loop {
        let byte = if rng.percent(70) { rng.pick(&near) } else { rng.byte() };
        if byte != 0 && byte / 2 != address {
            return byte;
        }
    }
}

/// The same talk with other bytes and often with other aims, so that it takes the same clocks.
fn twin(rng: &mut Rng, talk: &Talk, address: u8) -> Talk {
    let manner = Manner { slowest: 1, twins: true, broken: 0 };
    let other = |rng: &mut Rng, one: &Transfer| {
        let aim = if rng.percent(60) { one.aim } else { transfer(rng, manner, address).aim };
        Transfer { aim, data: one.data.iter().map(|_| rng.byte()).collect(), ..one.clone() }
    };
    talk.iter().map(|one| other(rng, one)).collect()
}

/// Draws a talk and gives the events that it means.
fn draw(pen: &mut Pen, talk: &Talk, master: u8, address: u8) -> Vec<(usize, [u8; 4])> {
    let mut meant = vec![];
    for one in talk {
        let first = match one.aim {
            Aim::Write => 2 * address,
            Aim::Read => 2 * address + 1,
            Aim::GeneralCall => 0x00,
            Aim::Other(byte) => byte,
        };
        pen.start(one.clocks[0]);
        pen.byte(first, one.ninth);
        for (place, value) in one.data.iter().enumerate() {
            let sample = pen.byte(*value, one.ninth);
            match (one.aim, place) {
                (Aim::Write, 0) => meant.push((sample, command(master, *value))),
                (Aim::Write, _) => meant.push((sample, write(master, *value))),
                (Aim::Read, _) => meant.push((sample, read(master))),
                (Aim::GeneralCall, 0) => meant.push((sample, general_call(master, *value))),
                _ => {}
            }
        }
    }
    let sample = pen.stop(talk.last().map_or(0, |one| one.clocks[1]));
    let opens = |one: &Transfer| matches!(one.aim, Aim::Write | Aim::Read) && !one.data.is_empty();
    if talk.iter().any(opens) {
        meant.push((sample, stop(master)));
    }
    meant
}
