//! The writer of #101, with the kind of part of #105: its refusals in order, its buffer, and the way
//! there and back.

use model::part::BOTH_KINDS;
use model::rng::Rng;
use model::traces::{seed_of, trace, trace_of, trace_of_kind};
use model::{address_of, pins_of, read_trace, write_trace, Kind, Written};

/// The pins of 70h.
const PINS: [u8; 4] = [0, 0, 0, 0];

/// Writes into a buffer of this room that holds EEh. Gives the answer and the buffer.
fn write(pins: [u8; 4], kind: u8, events: &[u8], room: usize) -> (Written, Vec<u8>) {
    let mut buffer = vec![0xEE; room];
    let written = write_trace(pins, kind, events, &mut buffer);
    (written, buffer)
}

/// A refusal has length 0 and leaves the buffer untouched.
fn assert_refused(pins: [u8; 4], kind: u8, events: &[u8], room: usize, number: u8) {
    let expected = (Written { number, length: 0 }, vec![0xEE; room]);
    let said = write(pins, kind, events, room);
    assert!(said == expected, "{number}: {pins:?}, kind {kind}, {} bytes", events.len());
}

/// M1's trace, in a buffer that is longer, then in one that just has the room.
#[test]
fn m1_is_written() {
    let events = [0, 0, 1, 0, 1, 0, 5, 0, 3, 0, 0, 0, 2, 0, 0, 0];
    let m1 = [4, 0, 0, 0, 0, 4, 0, 0, 0, 1, 0, 1, 0, 5, 0, 3, 0, 0, 0, 2, 0, 0, 0, 1, 0];
    let (written, buffer) = write(PINS, 0, &events, 28);
    assert_eq!(written, Written { number: 0, length: 25 });
    assert_eq!(buffer[..25], m1);
    assert_eq!(buffer[25..], [0xEE; 3]);
    assert_eq!(write(PINS, 0, &events, 25), (written, m1.to_vec()));
    assert_refused(PINS, 0, &events, 24, 9);
}

/// 8, 5, 6, 3, 9: each refusal with all later ones also due, then with none of them due.
#[test]
fn refusals_in_order() {
    let too_many = vec![6; 4 * 4097];
    let odd = vec![6; 4 * 4097 + 1];
    assert_refused([1, 0, 0, 0], 2, &odd, 0, 8);
    assert_refused([0, 0, 4, 0], 0, &[], 9, 8);
    assert_refused(PINS, 2, &odd, 0, 5);
    for length in [1, 2, 3, 5, 4 * 4096 - 1, 4 * 4096 + 1] {
        assert_refused(PINS, 0, &odd[..length], 20_000, 5);
    }
    assert_refused(PINS, 2, &too_many, 0, 6);
    assert_refused(PINS, 1, &too_many, 20_000, 6);
    assert_refused(PINS, 2, &[6, 0, 0, 0], 0, 3);
    for room in [0, 1, 6, 7, 8, 12] {
        assert_refused(PINS, 1, &[6, 0, 0, 0], room, 9);
    }
    assert_refused(PINS, 0, &[], 8, 9);
}

/// "Refusing another kind with 3": 0 and 1 are written, every other number is 3.
#[test]
fn every_kind() {
    for number in 0..=255 {
        match Kind::of(number) {
            Some(_) => assert_eq!(write(PINS, number, &[], 9).1, [4, 0, 0, 0, 0, 0, 0, 1, number]),
            None => assert_refused(PINS, number, &[], 9, 3),
        }
    }
}

/// No event is 9 bytes, 4,096 events are 9 + 16,384.
#[test]
fn shortest_and_longest() {
    assert_eq!(write(PINS, 0, &[], 9).1, [4, 0, 0, 0, 0, 0, 0, 1, 0]);
    let events = [6, 0, 0, 0].repeat(4096);
    let (written, buffer) = write(PINS, 0, &events, 16_393);
    assert_eq!(written, Written { number: 0, length: 16_393 });
    assert_eq!(buffer, trace_of(PINS, &[[6, 0, 0, 0]; 4096]));
    assert_refused(PINS, 0, &events, 16_392, 9);
}

/// The count is low-first.
#[test]
fn count_of_300() {
    let (_, buffer) = write([1, 1, 1, 3], 1, &[9; 1200], 1300);
    assert_eq!(buffer[..9], [4, 1, 1, 1, 3, 0x2C, 0x01, 9, 9]);
    assert_eq!(buffer[1205..1210], [9, 9, 1, 1, 0xEE]);
}

/// 8 exactly where the pins have no address.
#[test]
fn every_strapping() {
    for code in 0..5usize.pow(4) {
        let pins = [125, 25, 5, 1].map(|place| (code / place % 5) as u8);
        let number = if address_of(pins).is_some() { 0 } else { 8 };
        assert_eq!(write(pins, 0, &[], 9).0.number, number, "{pins:?}");
    }
}

/// "Events are written as given, also those a device will refuse."
#[test]
fn any_event_bytes_there_and_back() {
    for seed in 0..300 {
        let mut rng = Rng::new(seed);
        let pins = pins_of(rng.between(0x08, 0x77) as u8).unwrap();
        let kind = rng.pick(&BOTH_KINDS);
        let events: Vec<u8> = (0..4 * rng.below(60)).map(|_| rng.byte()).collect();
        let (written, buffer) = write(pins, kind.number(), &events, 300);
        let read = read_trace(&buffer[..written.length]).unwrap();
        assert_eq!((read.pins, read.kind, read.events.concat()), (pins, kind, events));
    }
}

/// "Writing what was read from an accepted trace gives the same bytes."
#[test]
fn accepted_traces_there_and_back() {
    for place in 0..200 {
        let seed = seed_of(101, place);
        let bytes = trace(seed, Rng::new(seed).below(400) as usize);
        let read = read_trace(&bytes).unwrap();
        assert!(trace_of_kind(read.kind, read.pins, &read.events) == bytes);
        let (written, buffer) =
            write(read.pins, read.kind.number(), &read.events.concat(), bytes.len());
        assert_eq!((written.number, written.length), (0, bytes.len()));
        assert!(buffer == bytes);
    }
}
