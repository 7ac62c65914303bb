//! What the listener hears in one sample, and in which order: captures drawn sample by sample.

use model::event::make::*;
use model::pen::{samples_of, Pen};
use model::rng::Rng;
use model::wire::listen::{listen, Heard, Listener};
use model::wire::{Fault, Setting, DOWN_SCL, DOWN_SDA, INT_IN, LINES};
use model::Kind;

const FREE: &[u8] = &[3];
const WRITE: u8 = 0xE2;
const READ: u8 = 0xE3;

fn setting(samples_per_tick: u64) -> Setting {
    Setting { address: 0x71, kind: Kind::Pca9641, samples_per_tick }
}

/// No tick comes in these captures.
const LONG: u64 = 1 << 40;

/// Both buses with all downstream lines high.
fn with_lines(bus_0: &[u8], bus_1: &[u8]) -> Vec<u8> {
    samples_of([bus_0, bus_1]).iter().map(|sample| sample | LINES).collect()
}

fn pen() -> Pen {
    Pen::new(Rng::new(0), 1, 1, 1)
}

/// One transfer and its STOP: the samples of its ninth clocks and of the STOP.
fn transfer(pen: &mut Pen, bytes: &[u8]) -> Vec<u64> {
    pen.start(0);
    let mut at: Vec<usize> = bytes.iter().map(|byte| pen.byte(*byte, 0)).collect();
    at.push(pen.stop(0));
    at.into_iter().map(|sample| sample as u64).collect()
}

#[test]
fn the_first_sample_is_held_against_three_high_lines() {
    let heard = |samples: &[u8]| listen(setting(LONG), samples).events;
    assert_eq!(heard(&[0x7F]), []);
    assert_eq!(heard(&[0xFF, 0x7F]), []);
    assert_eq!(heard(&[0x0F]), [(0, lines(0, 0, 0))]);
    assert_eq!(heard(&[0x7F & !DOWN_SCL]), [(0, lines(0, 1, 1))]);
    assert_eq!(heard(&[0x7F & !DOWN_SDA]), [(0, lines(1, 0, 1))]);
    assert_eq!(heard(&[0x7F & !INT_IN]), [(0, lines(1, 1, 0))]);
    assert_eq!(heard(&[0x3F, 0x3F, 0x7F]), [(0, lines(1, 1, 0)), (2, lines(1, 1, 1))]);
    assert_eq!(heard(&[]), []);
}

#[test]
fn lines_that_are_not_wired_are_high() {
    let mut heard = Heard::default();
    heard.take(Listener::new(setting(2), false).hear(&[0x0F, 0x1F, 0x0F, 0x0F]));
    assert_eq!(heard.events, [(2, tick())]);
}

/// The first sample counts 0: a TICK stands at each multiple of the number, and none at 0.
#[test]
fn where_ticks_stand() {
    for of_tick in 1..=7 {
        let heard = listen(setting(of_tick), &[0x7F; 22]);
        let expected: Vec<(u64, [u8; 4])> =
            (1..22).filter(|at| at % of_tick == 0).map(|at| (at, tick())).collect();
        assert_eq!(heard.events, expected, "{of_tick}");
    }
}

/// LINES, STOP of both and TICK in one sample.
#[test]
fn lines_come_first_and_the_tick_last() {
    let (mut bus_0, mut bus_1) = (pen(), pen());
    let at = transfer(&mut bus_0, &[WRITE, 0x01]);
    transfer(&mut bus_1, &[WRITE, 0x02]);
    let mut samples = with_lines(&bus_0.levels, &bus_1.levels);
    samples[at[2] as usize] &= !INT_IN;
    let expected = [
        (at[1], command(0, 1)),
        (at[1], command(1, 2)),
        (at[2], lines(1, 1, 0)),
        (at[2], stop(0)),
        (at[2], stop(1)),
        (at[2], tick()),
    ];
    assert_eq!(listen(setting(at[2]), &samples).events, expected);
}

/// A READ at the sample of a TICK is answered before it, and after the LINES of the same sample.
#[test]
fn a_read_at_the_sample_of_a_tick() {
    let mut bus = pen();
    transfer(&mut bus, &[WRITE, 0x03, 0x01]);
    transfer(&mut bus, &[WRITE, 0x81, 0x01]);
    let at = transfer(&mut bus, &[READ, 0xC8]);
    transfer(&mut bus, &[WRITE, 0x01]);
    let later = transfer(&mut bus, &[READ, 0x00]);
    let mut samples = with_lines(&bus.levels, FREE);
    // STATUS at the TICK that ends a reserve of 1: SDA is seen low already. CONTR after it: lost.
    samples[at[1] as usize] &= !DOWN_SDA;
    let heard = listen(setting(at[1]), &samples);
    let ends = |sample: u64| heard.events.iter().filter(|event| event.0 == sample).count();
    assert_eq!(ends(at[1]), 3);
    assert_eq!((heard.reads[0].sample, heard.reads[0].expected), (at[1], 0x48));
    // The bus was busy at that TICK by the START in the same sample, so the reserve ends in the sample
    // after it, where SDA is high again.
    assert_eq!((heard.reads[1].sample, heard.reads[1].expected), (later[1], 0x00));
}

/// CONTR is read at the TICK that ends the grant: it is still there.
#[test]
fn the_grant_is_read_before_the_tick_that_ends_it() {
    let mut bus = pen();
    transfer(&mut bus, &[WRITE, 0x03, 0x01]);
    transfer(&mut bus, &[WRITE, 0x01, 0x01]);
    let first = transfer(&mut bus, &[READ, 0x03]);
    let second = transfer(&mut bus, &[READ, 0x00]);
    let heard = listen(setting(first[1]), &with_lines(&bus.levels, FREE));
    let read: Vec<(u64, u8, u8)> =
        heard.reads.iter().map(|read| (read.sample, read.heard, read.expected)).collect();
    assert_eq!(read, [(first[1], 3, 3), (second[1], 0, 0)]);
    assert_eq!(heard.first_wrong(), None);
    // One sample earlier the TICK has ended it.
    let heard = listen(setting(first[1] - 1), &with_lines(&bus.levels, FREE));
    assert_eq!(heard.reads[0].expected, 0);
    // The chip had begun to show its byte before that TICK, so it is not accused.
    assert!(heard.reads[0].overtaken);
    assert_eq!(heard.first_wrong(), None);
    // Long before the byte began, it is.
    let heard = listen(setting(first[0] - 9), &with_lines(&bus.levels, FREE));
    assert_eq!(heard.first_wrong(), Some(first[1]));
}

/// STATUS is read as C8h while downstream SDA falls at some sample. Before SCL falls for the first bit
/// the chip had to show it low; from that sample on it need not; after the ninth clock it may not.
#[test]
fn where_a_byte_may_be_overtaken() {
    let mut bus = pen();
    transfer(&mut bus, &[WRITE, 0x02]);
    let at = transfer(&mut bus, &[READ, 0xC8]);
    let right = with_lines(&bus.levels, FREE);
    let falls = at[0] + 1;
    assert_eq!((right[at[0] as usize] & 1, right[falls as usize] & 1), (1, 0));
    for sample in at[0] - 4..=at[1] + 2 {
        let mut samples = right.clone();
        samples[sample as usize..].iter_mut().for_each(|sample| *sample &= !DOWN_SDA);
        let heard = listen(setting(LONG), &samples);
        let expected = if sample <= at[1] { 0x48 } else { 0xC8 };
        let read = heard.reads[0];
        assert_eq!((read.heard, read.expected), (0xC8, expected), "{sample}");
        assert_eq!(read.overtaken, (falls..=at[1]).contains(&sample), "{sample}");
        assert_eq!(read.is_wrong(), sample < falls, "{sample}");
    }
}

#[test]
fn two_data_writes_are_a_pair_and_nothing_else_is() {
    let (mut bus_0, mut bus_1) = (pen(), pen());
    let at = transfer(&mut bus_0, &[WRITE, 0x01, 0x05]);
    transfer(&mut bus_1, &[WRITE, 0x01, 0x81]);
    let heard = listen(setting(LONG), &with_lines(&bus_0.levels, &bus_1.levels));
    let both = [(at[1], command(0, 1)), (at[1], command(1, 1)), (at[2], pair(0x05, 0x81))];
    assert_eq!(heard.events, [&both[..], &[(at[3], stop(0)), (at[3], stop(1))]].concat());
}

/// A condition after so many clocks of a byte. From the second clock on it is inside: counted, and the
/// byte is lost. A START begins the next transfer at once; after a STOP the next START does.
#[test]
fn conditions_inside_a_byte() {
    for clocks in 1..=8 {
        for by_start in [false, true] {
            let mut bus = pen();
            bus.start(0);
            bus.byte(WRITE, 0);
            let opened = bus.byte(0x01, 0) as u64;
            let broken = if by_start { bus.start(clocks) } else { bus.stop(clocks) } as u64;
            let lost = by_start.then_some(bus.byte(WRITE, 0));
            let after = bus.byte(0x03, 0) as u64;
            let ended = bus.stop(1) as u64;
            let later = transfer(&mut bus, &[READ, 0x00]);
            let heard = listen(setting(LONG), &with_lines(&bus.levels, FREE));
            let next = [(later[1], read(0)), (later[2], stop(0))];
            let expected = match lost {
                // The transfer that the START began; its STOP is the one that is due.
                Some(_) => vec![(opened, command(0, 1)), (after, command(0, 3)), (ended, stop(0))],
                // The STOP is given, and what follows is outside.
                None => vec![(opened, command(0, 1)), (broken, stop(0))],
            };
            assert_eq!(heard.events, [&expected[..], &next].concat(), "{clocks} {by_start}");
            let fault = Fault { sample: broken, bus: 0 };
            let faults = if clocks >= 2 { vec![fault] } else { vec![] };
            assert_eq!(heard.faults, faults, "{clocks} {by_start}");
        }
    }
}

/// Faults of bytes for other devices count too, on either bus, and clocks outside never do.
#[test]
fn whose_bytes_are_broken() {
    let mut bus = pen();
    (0..5).for_each(|bit| {
        bus.clock(bit % 2);
    });
    bus.stop(0);
    bus.start(0);
    bus.byte(0x20, 0);
    let broken = bus.stop(4) as u64;
    let heard = listen(setting(LONG), &with_lines(FREE, &bus.levels));
    assert_eq!((heard.events, heard.faults), (vec![], vec![Fault { sample: broken, bus: 1 }]));
}
