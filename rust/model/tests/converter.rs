//! Old traces given their third section (#105).

use model::converter::conversion;
use model::rng::Rng;
use model::traces::{event_list, old_trace_of, seed_of, trace, trace_of};
use model::{convert_trace, listing, pins_of, read_trace, Kind, Written};

/// M1 as document 01 had it.
const OLD_M1: [u8; 23] = [4, 0, 0, 0, 0, 4, 0, 0, 0, 1, 0, 1, 0, 5, 0, 3, 0, 0, 0, 2, 0, 0, 0];

/// Converts into a buffer of this room that holds EEh. Gives the answer and the buffer.
fn convert(old: &[u8], room: usize) -> (Written, Vec<u8>) {
    let mut buffer = vec![0xEE; room];
    let written = convert_trace(old, &mut buffer);
    (written, buffer)
}

fn assert_refused(old: &[u8], room: usize, number: u8) {
    assert_eq!(convert(old, room), (Written { number, length: 0 }, vec![0xEE; room]));
    if number != 9 {
        assert_eq!(conversion(old), format!("R{number}\n").into_bytes());
    }
}

/// "An accepted old trace with 01 00 added": in a longer buffer, in one that fits, in one too short.
#[test]
fn old_m1() {
    assert_eq!(listing(&OLD_M1), "R5\n");
    let new = [&OLD_M1[..], &[1, 0]].concat();
    assert_eq!(conversion(&OLD_M1), new);
    assert!(listing(&new).starts_with("70 0004\n"));
    let (written, buffer) = convert(&OLD_M1, 28);
    assert_eq!(written, Written { number: 0, length: 25 });
    assert_eq!((&buffer[..25], &buffer[25..]), (&new[..], &[0xEE; 3][..]));
    assert_eq!(convert(&OLD_M1, 25).1, new);
    for room in [0, 1, 23, 24] {
        assert_refused(&OLD_M1, room, 9);
    }
}

/// 01's refusals in 01's order, each with later ones also due. Room comes last.
#[test]
fn refusals_in_order() {
    let cases: [(&[u8], u8); 15] = [
        (&[], 5),
        (&[5], 10),
        (&[1, 0], 10),
        (&[4], 5),
        (&[4, 9, 0, 0], 5),
        (&[4, 9, 0, 0, 0], 8),
        (&[4, 1, 0, 0, 0, 0xFF], 8),
        (&[4, 0, 0, 0, 0, 1], 5),
        (&[4, 0, 0, 0, 0, 0x01, 0x10], 6),
        (&[4, 0, 0, 0, 0, 0x00, 0x10], 5),
        (&[4, 0, 0, 0, 0, 1, 0, 6, 0, 0], 5),
        (&[4, 0, 0, 0, 0, 1, 0, 6, 0, 0, 0, 0], 7),
        (&[4, 0, 0, 0, 0, 0, 0, 1], 7),
        // New traces, of either kind.
        (&[4, 0, 0, 0, 0, 0, 0, 1, 0], 7),
        (&[4, 0, 0, 0, 0, 0, 0, 1, 1], 7),
    ];
    for (old, number) in cases {
        assert_refused(old, 0, number);
        assert_refused(old, 40, number);
    }
}

#[test]
fn shortest_and_longest() {
    assert_eq!(convert(&[4, 0, 0, 0, 0, 0, 0], 9).1, [4, 0, 0, 0, 0, 0, 0, 1, 0]);
    let old = old_trace_of([0; 4], &[[6, 0, 0, 0]; 4096]);
    assert_eq!(convert(&old, 16_393).1, trace_of([0; 4], &[[6, 0, 0, 0]; 4096]));
    assert_refused(&old, 16_392, 9);
    assert_refused(&old_trace_of([0; 4], &[[6, 0, 0, 0]; 4097]), 20_000, 6);
}

/// What is converted reads as the same pins and events, of a PCA9641. A second conversion is 7.
#[test]
fn random_old_traces() {
    for place in 0..100 {
        let seed = seed_of(105, place);
        let pins = pins_of(Rng::new(seed).between(0x08, 0x77) as u8).unwrap();
        let events = event_list(seed, Rng::new(seed).below(200) as usize);
        let new = conversion(&old_trace_of(pins, &events));
        let read = read_trace(&new).unwrap();
        assert_eq!((read.pins, read.kind, read.events), (pins, Kind::Pca9641, events));
        assert_refused(&new, new.len() + 2, 7);
        assert_refused(&trace(seed, 5), 40, 7);
    }
}
