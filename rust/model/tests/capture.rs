//! The importer of #104: what a capture gives. Its refusals are in `capture_refusals.rs`.

use model::capture::{edges, events_of, Edge};
use model::event::make::*;
use model::pen::{samples_of, Pen};
use model::rng::Rng;
use model::{import_capture, Device, Imported};

/// The device's address in these captures, and its first bytes.
const ADDRESS: u8 = 0x71;
const WRITE: u8 = 0xE2;
const READ: u8 = 0xE3;
/// The first byte of another device.
const OTHER: u8 = 0xE4;

/// One sample of a free bus.
const FREE: &[u8] = &[3];

/// A bus on which these talks are drawn. A talk is a list of transfers, a transfer a list of bytes.
fn bus(talks: &[&[&[u8]]]) -> Vec<u8> {
    let mut pen = Pen::new(Rng::new(0), 1, 1, 1);
    for talk in talks {
        for transfer in *talk {
            pen.start(0);
            transfer.iter().for_each(|byte| {
                pen.byte(*byte, 0);
            });
        }
        pen.stop(0);
    }
    pen.levels
}

/// What these talks on bus 0 give.
fn given(talks: &[&[&[u8]]]) -> Vec<[u8; 4]> {
    events_of(&samples_of([&bus(talks), FREE]), ADDRESS).unwrap()
}

#[test]
fn no_sample_and_one_sample() {
    for samples in [&[][..], &[0x00], &[0x05], &[0x0F], &[0xFF]] {
        assert_eq!(events_of(samples, ADDRESS), Ok(vec![]));
    }
}

/// Every step of SCL and SDA: what it is, on either bus.
#[test]
fn edges_of_two_samples() {
    for (was, is) in (0..4u8).flat_map(|was| (0..4u8).map(move |is| (was, is))) {
        // SCL is bit 0, SDA bit 1.
        let expected = match (was, is) {
            (0, 1) | (2, 1) => Some(Edge::Clock(0)),
            (0, 3) | (2, 3) => Some(Edge::Clock(1)),
            (3, 1) => Some(Edge::Start),
            (1, 3) => Some(Edge::Stop),
            _ => None,
        };
        let expected: Vec<(usize, Edge)> = expected.into_iter().map(|edge| (1, edge)).collect();
        assert_eq!(edges(&[was, is], 0), expected, "{was} {is}");
        assert_eq!(edges(&[was << 2, is << 2], 1), expected, "{was} {is}");
        assert_eq!(edges(&[was | 0xF0, is | 0x50], 0), expected, "{was} {is}");
        assert_eq!(edges(&[was, is], 1), []);
    }
}

#[test]
fn a_written_transfer() {
    let expected = vec![command(0, 0x81), write(0, 0x05), write(0, 0xC3), stop(0)];
    assert_eq!(given(&[&[&[WRITE, 0x81, 0x05, 0xC3]]]), expected);
    // An address alone earns no STOP.
    assert_eq!(given(&[&[&[WRITE]]]), Vec::<[u8; 4]>::new());
    assert_eq!(given(&[&[&[WRITE, 0x07]]]), vec![command(0, 0x07), stop(0)]);
}

/// READ is for the bytes after the address, whatever they are.
#[test]
fn a_read_transfer() {
    assert_eq!(given(&[&[&[READ, 0x55, 0x00]]]), vec![read(0), read(0), stop(0)]);
    assert_eq!(given(&[&[&[READ]]]), Vec::<[u8; 4]>::new());
    let repeated = given(&[&[&[WRITE, 0x02], &[READ, 0xC8]]]);
    assert_eq!(repeated, vec![command(0, 0x02), read(0), stop(0)]);
}

/// A repeated START begins anew: its first data byte is a COMMAND again.
#[test]
fn a_repeated_start() {
    let talk = given(&[&[&[WRITE, 0x03, 0x32], &[WRITE, 0x01, 0x05]]]);
    let expected = [command(0, 3), write(0, 0x32), command(0, 1), write(0, 0x05), stop(0)];
    assert_eq!(talk, expected);
}

#[test]
fn other_addresses_are_skipped() {
    for first in 1..=255u8 {
        let events = given(&[&[&[first, 0x06, 0x06]]]).len();
        let expected = if first == WRITE || first == READ { 3 } else { 0 };
        assert_eq!(events, expected, "{first:02X}");
    }
}

/// "GENERAL CALL for its first data byte alone", and no STOP for it.
#[test]
fn a_general_call() {
    assert_eq!(given(&[&[&[0x00, 0x06, 0x06, 0x07]]]), vec![general_call(0, 0x06)]);
    assert_eq!(given(&[&[&[0x00, 0x99]]]), vec![general_call(0, 0x99)]);
    assert_eq!(given(&[&[&[0x00]]]), Vec::<[u8; 4]>::new());
}

/// "STOP is given only after a COMMAND or READ since that master's last STOP."
#[test]
fn when_a_stop_is_given() {
    let open = command(0, 0x01);
    // The transfer to another address and the general call take no STOP away.
    assert_eq!(given(&[&[&[WRITE, 0x01], &[OTHER, 0x55]]]), vec![open, stop(0)]);
    let called = given(&[&[&[WRITE, 0x01], &[0x00, 0x06]]]);
    assert_eq!(called, vec![open, general_call(0, 0x06), stop(0)]);
    assert_eq!(given(&[&[&[OTHER, 0x55], &[WRITE, 0x01]]]), vec![open, stop(0)]);
    assert_eq!(given(&[&[&[WRITE, 0x01], &[WRITE]]]), vec![open, stop(0)]);
    // The next talk starts afresh.
    let talks = given(&[&[&[WRITE, 0x01]], &[&[OTHER, 0x55]], &[&[READ, 0x00]]]);
    assert_eq!(talks, vec![open, stop(0), read(0), stop(0)]);
}

/// A capture that ends between bytes is taken as it is: the events so far, and no STOP.
#[test]
fn a_capture_that_ends_between_bytes() {
    let mut pen = Pen::new(Rng::new(0), 1, 1, 1);
    pen.start(0);
    pen.byte(WRITE, 0);
    pen.byte(0x01, 1);
    let whole = [command(0, 0x01)];
    assert_eq!(events_of(&samples_of([&pen.levels, FREE]), ADDRESS).unwrap(), whole);
    // The event stands at the ninth rise: without that sample the byte is not there yet.
    pen.levels.pop();
    assert_eq!(events_of(&samples_of([&pen.levels, FREE]), ADDRESS), Err(12));
}

/// The bit is SDA in the sample where SCL rises, not before and not after; the ninth is ignored.
#[test]
fn where_a_bit_is_taken() {
    for ninth in [0, 1] {
        let mut levels = vec![3, 1];
        for value in [WRITE, 0x25] {
            let bits = (0..8).rev().map(|place| (value >> place) & 1).chain([ninth]);
            // SDA is the other way while SCL is low, and again as it falls.
            bits.for_each(|bit| levels.extend([2 * (1 - bit), 1 + 2 * bit, 2 * (1 - bit)]));
        }
        let events = events_of(&samples_of([&levels, FREE]), ADDRESS).unwrap();
        assert_eq!(events, [command(0, 0x25)]);
    }
}

/// "The first sample is only a starting level": no edge leads into it.
#[test]
fn the_first_sample() {
    // SCL high and SDA low at first is no START, so these clocks are outside.
    let mut pen = Pen::new(Rng::new(0), 1, 1, 0);
    pen.byte(WRITE, 0);
    pen.byte(0x01, 0);
    assert_eq!(events_of(&samples_of([&pen.levels, FREE]), ADDRESS), Ok(vec![]));
}

/// "Clocks outside START to STOP are ignored", however many, and so are STOPs.
#[test]
fn outside_start_to_stop() {
    for clocks in 0..20 {
        let mut pen = Pen::new(Rng::new(0), 1, 0, 0);
        for _ in 0..2 {
            (0..clocks).for_each(|place| {
                pen.clock(place % 2);
            });
            pen.stop(1);
            pen.stop(1);
            pen.start(clocks as usize);
            pen.byte(READ, 1);
            pen.byte(0x00, 1);
            pen.stop(1);
        }
        let events = events_of(&samples_of([&pen.levels, FREE]), ADDRESS).unwrap();
        assert_eq!(events, [read(0), stop(0), read(0), stop(0)], "{clocks} clocks");
    }
}

/// START then STOP at once is no transfer to anybody.
#[test]
fn start_and_stop_at_once() {
    let mut pen = Pen::new(Rng::new(0), 1, 1, 1);
    pen.start(0);
    pen.stop(0);
    pen.start(0);
    pen.stop(1);
    assert_eq!(events_of(&samples_of([&pen.levels, FREE]), ADDRESS), Ok(vec![]));
}

/// Both masters at the same samples: data writes become PAIR, nothing else does.
#[test]
fn both_masters_at_one_sample() {
    let both = |first: &[u8], second: &[u8]| {
        let (bus_0, bus_1) = (bus(&[&[first]]), bus(&[&[second]]));
        events_of(&samples_of([&bus_0, &bus_1]), ADDRESS).unwrap()
    };
    let commands = [command(0, 1), command(1, 1)];
    let stops = [stop(0), stop(1)];
    let pairs = [pair(0x11, 0x22), pair(0x33, 0x44)];
    let events = both(&[WRITE, 1, 0x11, 0x33], &[WRITE, 1, 0x22, 0x44]);
    assert_eq!(events, [&commands[..], &pairs, &stops].concat());
    // A READ beside a WRITE, then a WRITE beside a byte for somebody else.
    let events = both(&[READ, 0, 0], &[WRITE, 1, 0x22]);
    assert_eq!(events, [read(0), command(1, 1), read(0), write(1, 0x22), stop(0), stop(1)]);
    let events = both(&[OTHER, 0, 0x11], &[WRITE, 1, 0x22]);
    assert_eq!(events, [command(1, 1), write(1, 0x22), stop(1)]);
    // The COMMAND of one beside the WRITE of the other: bus 1 starts one byte later.
    let later = [vec![3; 18], bus(&[&[&[WRITE, 1, 0x22]]])].concat();
    let first = bus(&[&[&[WRITE, 1, 0x11, 0x33]]]);
    let events = events_of(&samples_of([&first, &later]), ADDRESS).unwrap();
    let expected = [command(0, 1), write(0, 0x11), command(1, 1), pair(0x33, 0x22)];
    assert_eq!(events, [&expected[..], &stops].concat());
}

/// One sample apart is no PAIR, and the earlier one comes first whichever master it is.
#[test]
fn one_sample_apart() {
    let one = bus(&[&[&[WRITE, 1, 0x11]]]);
    let later = [vec![3], bus(&[&[&[WRITE, 1, 0x22]]])].concat();
    let events = events_of(&samples_of([&later, &one]), ADDRESS).unwrap();
    let expected = [command(1, 1), command(0, 1), write(1, 0x11), write(0, 0x22), stop(1), stop(0)];
    assert_eq!(events, expected);
}

/// M1 as a capture: the device's answers are M1's.
#[test]
fn m1_from_a_capture() {
    let samples = samples_of([&bus(&[&[&[0xE0, 0x01, 0x05]], &[&[0xE1, 0x07]]]), FREE]);
    let mut bytes = [0xEE; 24];
    assert_eq!(import_capture(&samples, 0x70, &mut bytes), Imported { number: 0, events: 5 });
    assert_eq!(bytes[20..], [0xEE; 4]);
    let mut device = Device::power_up();
    let mut step =
        |at: usize| device.step([bytes[at], bytes[at + 1], bytes[at + 2], bytes[at + 3]]);
    let answers = [0, 4, 8, 12].map(|at| u32::from_be_bytes(step(at)));
    assert_eq!(answers, [0x0000000C, 0x0000200C, 0x0000250C, 0x0007250C]);
}
