//! The importer of #104: its refusals, its room, and random captures.

use model::capture::{bus_events, events_of, transfers, MOST_SAMPLES};
use model::capture_damage::*;
use model::captures::{any_manner, capture, Manner};
use model::happenings::Happenings;
use model::pen::{samples_of, Pen};
use model::rng::Rng;
use model::sightings::SIGHTS;
use model::traces::seed_of;
use model::{import_capture, Imported};

const ADDRESS: u8 = 0x5A;

/// A refusal has no events and leaves the buffer untouched.
fn assert_refused(samples: &[u8], address: u8, room: usize, number: u8) {
    let mut events = vec![0xEE; room];
    let imported = import_capture(samples, address, &mut events);
    assert_eq!(imported, Imported { number, events: 0 });
    assert_eq!(events, vec![0xEE; room]);
}

/// One good transfer on bus 0, three events.
fn good() -> Vec<u8> {
    let mut pen = Pen::new(Rng::new(0), 1, 1, 1);
    pen.start(0);
    [2 * ADDRESS, 0x01, 0x05].into_iter().for_each(|byte| {
        pen.byte(byte, 0);
    });
    pen.stop(0);
    samples_of([&pen.levels, &[3]])
}

/// A capture that ends with two clocks after a START.
fn broken() -> Vec<u8> {
    vec![0x0F, 0x0D, 0x0C, 0x0D, 0x0C, 0x0D]
}

/// "In order: 13, 11, 12, 9", each with all later ones also due.
#[test]
fn refusals_in_order() {
    let mut long = broken();
    lengthen(&mut long, MOST_SAMPLES + 1);
    assert_refused(&long, 0x07, 0, 13);
    assert_refused(&long, ADDRESS, 0, 13);
    assert_refused(&broken(), 0x07, 0, 11);
    assert_refused(&broken(), ADDRESS, 0, 12);
    assert_refused(&good(), ADDRESS, 0, 9);
    assert_refused(&[], 0x78, 0, 11);
}

#[test]
fn every_address() {
    for address in 0..=255u8 {
        let number = if (0x08..=0x77).contains(&address) { 0 } else { 11 };
        let imported = import_capture(&[], address, &mut []);
        assert_eq!(imported, Imported { number, events: 0 }, "{address:02X}");
    }
}

/// Room is four bytes an event, and bytes past the events stay.
#[test]
fn room_for_events() {
    for room in [0, 1, 8, 11] {
        assert_refused(&good(), ADDRESS, room, 9);
    }
    let expected = [0, 0, 1, 0, 1, 0, 5, 0, 3, 0, 0, 0];
    for room in [12, 13, 20] {
        let mut events = vec![0xEE; room];
        let imported = import_capture(&good(), ADDRESS, &mut events);
        assert_eq!(imported, Imported { number: 0, events: 3 });
        assert_eq!(events[..12], expected);
        assert_eq!(events[12..], vec![0xEE; room - 12]);
    }
}

/// The first sample is counted too.
#[test]
fn how_long_a_capture_may_be() {
    let [longest, too_long] = about_the_most(&good());
    assert_eq!((longest.len(), too_long.len()), (32_768, 32_769));
    assert_eq!(events_of(&longest, ADDRESS), events_of(&good(), ADDRESS));
    assert_refused(&too_long, ADDRESS, 100, 13);
}

/// One clock before a START, a STOP or the end belongs to it; the second is inside a byte.
#[test]
fn one_clock_and_two() {
    // After START, after a byte for the device, after a byte for another one; on either bus.
    for bytes in [&[][..], &[2 * ADDRESS], &[2 * ADDRESS, 0x03], &[0x44], &[0x44, 0x55]] {
        for clocks in 0..=8 {
            let number = if clocks < 2 { 0 } else { 12 };
            let drawn = |ninth: u8| {
                let mut pen = Pen::new(Rng::new(0), 1, 1, 1);
                pen.start(0);
                bytes.iter().for_each(|byte| {
                    pen.byte(*byte, ninth);
                });
                pen
            };
            let mut ends = [drawn(0), drawn(1), drawn(0), drawn(0)];
            ends[0].stop(clocks);
            // With no byte SDA is low, so there is a clock before this START.
            ends[1].start(clocks);
            (0..clocks).for_each(|_| {
                ends[2].clock(0);
                ends[3].clock(1);
            });
            ends[3].level(0, 1);
            for pen in ends {
                for samples in [samples_of([&pen.levels, &[3]]), samples_of([&[3], &pen.levels])] {
                    let found = events_of(&samples, ADDRESS).err().unwrap_or(0);
                    assert_eq!(found, number, "{bytes:?}, {clocks} clocks: {samples:?}");
                }
            }
        }
    }
}

/// Nine clocks after a byte are a byte again, and the count starts there.
#[test]
fn counting_starts_at_the_ninth_clock() {
    for clocks in 0..40 {
        let mut pen = Pen::new(Rng::new(0), 1, 1, 1);
        pen.start(0);
        (0..clocks).for_each(|_| {
            pen.clock(0);
        });
        let samples = samples_of([&[3], &pen.levels]);
        assert_eq!(events_of(&samples, ADDRESS).is_err(), clocks % 9 >= 2, "{clocks} clocks");
    }
}

/// The densest captures: 1,820 events a bus, and no two of them in one PAIR.
#[test]
fn the_most_events() {
    let counts: Vec<usize> = (0..20)
        .map(|seed| densest(&mut Rng::new(seed), ADDRESS, MOST_SAMPLES))
        .map(|samples| events_of(&samples, ADDRESS).unwrap().len())
        .collect();
    assert_eq!(counts.iter().max(), Some(&3640));
    // Two written transfers: both COMMANDs, the rest in PAIRs, both STOPs.
    assert_eq!(counts.iter().min(), Some(&1822));
}

/// A good capture gives what its maker meant, whatever is in bits 4 to 7 and however slowly it was
/// sampled. No bus gives more than an event each 18 samples.
#[test]
fn good_captures_give_what_they_mean() {
    for place in 0..600 {
        let mut rng = Rng::new(seed_of(104, place));
        let manner = any_manner(&mut rng);
        let length = rng.between(1, 1500) as usize;
        let mut made = capture(&mut rng, manner, length);
        for bus in [0, 1] {
            let list = transfers(&made.samples, bus);
            let events = bus_events(&list, bus as u8, made.address);
            assert_eq!(events, made.meant[bus], "{manner:?}");
            assert!(events.len() <= made.samples.len().saturating_sub(3) / 18);
        }
        let events = events_of(&made.samples, made.address);
        assert!(events.is_ok());
        let slowly: Vec<u8> = made.samples.iter().flat_map(|sample| [*sample; 3]).collect();
        assert_eq!(events_of(&slowly, made.address), events);
        with_noise(&mut rng, &mut made.samples);
        assert_eq!(events_of(&made.samples, made.address), events);
    }
}

/// Buses exchanged, masters exchanged.
#[test]
fn both_buses_are_read_alike() {
    for place in 0..200 {
        let mut rng = Rng::new(seed_of(105, place));
        let manner = any_manner(&mut rng);
        let made = capture(&mut rng, manner, 600);
        let exchanged: Vec<u8> =
            made.samples.iter().map(|sample| sample >> 2 | sample << 2 & 0x0C).collect();
        for bus in [0, 1] {
            let list = transfers(&exchanged, 1 - bus);
            assert_eq!(bus_events(&list, bus as u8, made.address), made.meant[bus]);
        }
    }
}

/// Every sight occurs, and every one that occurs has a name.
#[test]
fn random_captures_reach_everything() {
    let mut sights = Happenings::default();
    for place in 0..400 {
        let mut rng = Rng::new(seed_of(106, place));
        let manner = Manner { broken: rng.pick(&[0, 0, 20]), ..any_manner(&mut rng) };
        let made = capture(&mut rng, manner, 900);
        sights.see(&made.samples, made.address);
        sights.see(&damaged(&mut rng, &made.samples), made.address);
        sights.see(&any_samples(&mut rng, 20), made.address);
    }
    let mut noisy = good();
    with_noise(&mut Rng::new(3), &mut noisy);
    let dense = densest(&mut Rng::new(4), ADDRESS, MOST_SAMPLES);
    for samples in about_bytes(ADDRESS).into_iter().chain(about_the_most(&good())) {
        sights.see(&samples, ADDRESS);
    }
    for samples in [vec![], vec![0x0F], noisy, dense] {
        sights.see(&samples, ADDRESS);
    }
    let missing: Vec<_> = SIGHTS.iter().filter(|sight| sights.count(sight) == 0).collect();
    assert!(missing.is_empty(), "never: {missing:?}");
    let unnamed: Vec<_> = sights.counted().filter(|sight| !SIGHTS.contains(sight)).collect();
    assert!(unnamed.is_empty(), "without a name: {unnamed:?}");
}
