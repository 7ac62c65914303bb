//! Whole traces: refusals and their order, the buffer, the random cases. The third section, the kind
//! of part, is that of #105.

use model::damage::{damage, ALL_DAMAGES};
use model::happenings::{kinds_of, Happenings};
use model::part::BOTH_KINDS;
use model::rng::Rng;
use model::traces::*;
use model::{listing, read_trace, run_trace, Device, Kind, TraceResult};

/// A refused call: buffer untouched, address 00h, 0 events, kind 0, fresh device.
fn assert_refused(bytes: &[u8], room: usize, number: u8) {
    let mut answers = vec![0xEE; room];
    let result = run_trace(bytes, &mut answers);
    let kind = Kind::Pca9641;
    let device = Device::power_up_of(kind);
    assert_eq!(result, TraceResult { number, address: 0, events: 0, kind, device });
    assert_eq!(answers, vec![0xEE; room]);
}

/// "Trace order", each refusal with later ones also due.
#[test]
fn refusals_in_order() {
    let cases: [(&[u8], u8); 14] = [
        (&[], 5),
        (&[5], 10),
        (&[0, 9, 9], 10),
        (&[4], 5),
        (&[4, 9], 5),
        (&[4, 9, 0, 0], 5),
        (&[4, 9, 0, 0, 0], 8),
        (&[4, 1, 0, 0, 0, 0xFF], 8),
        (&[4, 2, 0, 0, 0, 0, 0], 8),
        (&[4, 0, 0, 0, 0], 5),
        (&[4, 0, 0, 0, 0, 1], 5),
        (&[4, 0, 0, 0, 0, 0x01, 0x10], 6),
        (&[4, 0, 0, 0, 0, 0x00, 0x10], 5),
        (&[4, 0, 0, 0, 0, 1, 0, 6, 0, 0], 5),
    ];
    for (bytes, number) in cases {
        assert_refused(bytes, 3, number);
    }
}

/// The third section by its bytes: "10 for a count other than 1, 3 [...] for another kind, both
/// after the events' 5 and before 7; 5 where the section is missing". Room is 3, so 9 is due in all.
#[test]
fn refusals_of_the_third_section() {
    let cases: [(&[u8], u8); 14] = [
        (&[], 5), // an old trace
        (&[0], 10),
        (&[2], 10),
        (&[255, 0], 10),
        (&[0, 9, 9], 10),
        (&[4, 1], 10),
        (&[1], 5),
        (&[1, 2], 3),
        (&[1, 255], 3),
        (&[1, 2, 0], 3),
        (&[1, 0, 0], 7),
        (&[1, 1, 1, 0], 7),
        (&[1, 0], 9),
        (&[1, 1], 9),
    ];
    let old = old_trace_of([0; 4], &[[6, 0, 0, 0]]);
    for (section, number) in cases {
        assert_refused(&[&old, section].concat(), 3, number);
    }
    let cut = [4, 0, 0, 0, 0, 1, 0, 6, 0, 1];
    assert_refused(&cut, 3, 5);
    assert_eq!(listing(&[4, 0, 0, 0, 0, 0, 0, 1, 1, 0]), "R7\n");
    assert_eq!(listing(&[4, 0, 0, 0, 0, 0, 0]), "R5\n");
}

/// Every number of a kind: 0 and 1 are kinds, all others are 3.
#[test]
fn every_kind() {
    for number in 0..=255 {
        let bytes = [4, 0, 0, 0, 0, 0, 0, 1, number];
        match number {
            0 => assert_eq!(read_trace(&bytes).unwrap().kind, Kind::Pca9641),
            1 => assert_eq!(read_trace(&bytes).unwrap().kind, Kind::Tpt29641),
            _ => assert_refused(&bytes, 3, 3),
        }
    }
}

/// The listing shows no kind; the report does.
#[test]
fn kind_is_reported() {
    for kind in BOTH_KINDS {
        let bytes = trace_of_kind(kind, [0; 4], &[[6, 0, 0, 0]]);
        let result = run_trace(&bytes, &mut [0; 4]);
        assert_eq!((result.number, result.kind, result.device.kind), (0, kind, kind));
        assert_eq!(listing(&bytes), "70 0001\n0000000C\n");
    }
}

/// Exactly enough room is enough, and bytes past 4n stay.
#[test]
fn room_for_answers() {
    let bytes = trace_of([1, 0, 2, 0], &[[6, 0, 0, 0], [99, 0, 0, 0]]);
    let mut answers = [0xEE; 10];
    assert_eq!(run_trace(&bytes, &mut answers[..8]).number, 0);
    let result = run_trace(&bytes, &mut answers);
    assert_eq!((result.number, result.address, result.events), (0, 0x18, 2));
    assert_eq!(answers, [0, 0, 0, 0x0C, 2, 0, 0, 0x0C, 0xEE, 0xEE]);
    assert_eq!(run_trace(&trace_of([0; 4], &[]), &mut []).number, 0);
}

#[test]
fn longest_trace() {
    let bytes = trace_of([0; 4], &[[6, 0, 0, 0]; 4096]);
    let mut answers = vec![0; 4 * 4096];
    assert_eq!(run_trace(&bytes, &mut answers).events, 4096);
    assert!(listing(&bytes).starts_with("70 1000\n0000000C\n"));
    assert_refused(&trace_of([0; 4], &[[6, 0, 0, 0]; 4097]), 5 * 4096, 6);
}

/// A run is the steps one after the other, on a device that is fresh at first.
#[test]
fn traces_are_runs_of_steps() {
    for seed in 0..50 {
        let bytes = trace(seed, 200);
        let read = read_trace(&bytes).unwrap();
        let mut device = Device::power_up_of(read.kind);
        let expected: Vec<[u8; 4]> = read.events.iter().map(|e| device.step(*e)).collect();
        let mut answers = vec![0; 800];
        let result = run_trace(&bytes, &mut answers);
        assert_eq!((result.number, result.events, result.device), (0, 200, device));
        assert_eq!(answers, expected.concat());
    }
}

#[test]
fn damaged_traces_are_refused() {
    for seed in 0..500 {
        let mut rng = Rng::new(seed);
        let length = rng.between(1, 40) as usize;
        let good = trace(seed, length);
        for kind in ALL_DAMAGES {
            let refused = damage(&mut rng, &good, kind);
            assert_refused(&refused.trace, refused.room, refused.number);
        }
    }
}

/// Any bytes at all are taken, and the run ends.
#[test]
fn random_bytes_are_taken() {
    for seed in 0..2000 {
        let mut rng = Rng::new(seed);
        let mut bytes: Vec<u8> = (0..rng.below(40)).map(|_| rng.byte() % 6).collect();
        if let Some(first) = bytes.first_mut() {
            *first = rng.pick(&[4, 4, 4, 4, 0]);
        }
        let mut answers = [0xEE; 20];
        let result = run_trace(&bytes, &mut answers);
        assert!(result.number == 0 || answers == [0xEE; 20]);
    }
}

/// Every kind of happening occurs on each kind of part, and every one that occurs has a name.
#[test]
fn random_cases_reach_everything() {
    for kind in BOTH_KINDS {
        let mut happenings = Happenings::default();
        for place in 0..480 {
            let length = if place < 400 { 300 } else { 2000 };
            happenings.run(kind, &event_list_of(kind, seed_of(7, place), length));
        }
        let names: Vec<&str> = kinds_of(kind).collect();
        let missing: Vec<_> = names.iter().filter(|name| happenings.count(name) == 0).collect();
        assert!(missing.is_empty(), "never on {kind:?}: {missing:?}");
        let unnamed: Vec<_> = happenings.counted().filter(|name| !names.contains(name)).collect();
        assert!(unnamed.is_empty(), "without a name on {kind:?}: {unnamed:?}");
    }
}

/// The same seed gives the same list, another seed another one.
#[test]
fn seeds() {
    assert_eq!(event_list(3, 300), event_list(3, 300));
    assert_ne!(event_list(3, 300), event_list(4, 300));
    assert_eq!(event_list(3, 300).len(), 300);
}
