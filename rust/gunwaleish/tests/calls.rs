//! Each call once with what document 01 says of it. The many cases are in `rust/compare`.

#![cfg(feature = "alloc")]

use gunwaleish::{
    address_of, convert_trace, convert_trace_into, import_capture, import_capture_into, listing,
    listing_into, pins_of, run, run_trace, write_trace, write_trace_into, Answer, Event, Ground,
    Master, Outcome, Part, Pins, Refusal, Report, MOST_EVENTS, MOST_SAMPLES, MOST_TRACE,
};

/// M1: master 0 asks for the bus, is granted it at its STOP, and reads CONTR. The part is a PCA9641.
const M1: [u8; 25] = [4, 0, 0, 0, 0, 4, 0, 0, 0, 1, 0, 1, 0, 5, 0, 3, 0, 0, 0, 2, 0, 0, 0, 1, 0];
const M1_TEXT: &str = "70 0004\n0000000C\n0000200C\n0000250C\n0007250C\n";

#[test]
fn a_trace_runs() {
    let mut answers = [0xEE; 18];
    let report = Report { address: 0x70, events: 4, part: Part::Pca9641 };
    assert_eq!(run_trace(&M1, &mut answers), Ok(report));
    let expected = [0, 0, 0, 12, 0, 0, 32, 12, 0, 0, 37, 12, 0, 7, 37, 12, 0xEE, 0xEE];
    assert_eq!(answers, expected);
}

/// M1 on the second source: the same answers, and the report names the part.
#[test]
fn a_trace_names_its_part() {
    let mut second = M1;
    second[24] = 1;
    let report = Report { address: 0x70, events: 4, part: Part::Tpt29641 };
    assert_eq!(run_trace(&second, &mut [0; 16]), Ok(report));
    assert_eq!(run(&second).unwrap().part, Part::Tpt29641);
    assert_eq!(listing(&second), M1_TEXT);
    for (number, part, name) in [(0, Part::Pca9641, "PCA9641"), (1, Part::Tpt29641, "TPT29641")] {
        assert_eq!((part.number(), part.to_string().as_str()), (number, name));
        assert_eq!((Part::of(number), Part::named(name)), (Some(part), Some(part)));
        assert_eq!(Part::named(&name.to_lowercase()), Some(part));
    }
    assert_eq!((Part::of(2), Part::named(""), Part::named("PCA9541")), (None, None, None));
}

#[test]
fn each_refusal_has_its_name_and_number() {
    let cases: [(&[u8], Refusal, u8); 10] = [
        (&M1[..22], Refusal::TraceCut, 5),
        (&[4, 0, 0, 0, 0, 1, 16], Refusal::TooManyEvents, 6),
        (&[4, 1, 0, 0, 0, 0, 0], Refusal::NoSuchStrapping, 8),
        (&[3], Refusal::WrongCount, 10),
        // The section of the part: missing in an old trace, then its bytes one after the other.
        (&M1[..23], Refusal::TraceCut, 5),
        (&[4, 0, 0, 0, 0, 0, 0, 2, 0], Refusal::WrongCount, 10),
        (&M1[..24], Refusal::TraceCut, 5),
        (&[4, 0, 0, 0, 0, 0, 0, 1, 2, 9], Refusal::NoSuchPart, 3),
        (&[4, 0, 0, 0, 0, 0, 0, 1, 1, 9], Refusal::BytesAfterEnd, 7),
        (&M1, Refusal::TooLittleRoom, 9),
    ];
    for (trace, refusal, number) in cases {
        let mut answers = [0xEE; 15];
        assert_eq!(run_trace(trace, &mut answers), Err(refusal));
        assert_eq!(answers, [0xEE; 15]);
        assert_eq!(refusal.number(), number);
        assert!(refusal.to_string().starts_with(&format!("refusal {number}: ")));
    }
}

/// M10, and the two ends of the addresses.
#[test]
fn straps_both_ways() {
    assert_eq!(address_of([1, 0, 0, 0]), Err(Refusal::NoSuchStrapping));
    assert_eq!(address_of([1, 1, 1, 3]), Ok(0x0F));
    assert_eq!(pins_of(0x0F), Ok([1, 1, 1, 3]));
    assert_eq!(pins_of(0x07), Err(Refusal::AddressOutside));
    assert_eq!(pins_of(0x08), Ok([1, 0, 0, 2]));
    assert_eq!(pins_of(0x77), Ok([0, 1, 1, 1]));
    assert_eq!(pins_of(0x78), Err(Refusal::AddressOutside));
    let pins = Pins { ad3: 1, ad2: 1, ad1: 1, ad0: 3 };
    assert_eq!(pins.address(), Ok(0x0F));
    assert_eq!(Pins::of_address(0x0F), Ok(pins));
    assert_eq!(pins.to_string(), "1 1 1 3");
}

#[test]
fn a_listing_is_written_only_if_it_fits() {
    assert_eq!(listing(&M1), M1_TEXT);
    assert_eq!(listing(&[]), "R5\n");
    let mut text = [0xEE; 46];
    assert_eq!(listing_into(&M1, &mut text[..43]), 44);
    assert_eq!(text, [0xEE; 46]);
    assert_eq!(listing_into(&M1, &mut text), 44);
    assert_eq!(&text[..44], M1_TEXT.as_bytes());
    assert_eq!(text[44..], [0xEE; 2]);
}

/// The events of M1 by their names.
fn m1_events() -> [Event; 4] {
    let master = Master::Zero;
    [
        Event::Command { master, code: 1 },
        Event::Write { master, value: 5 },
        Event::Stop { master },
        Event::Read { master },
    ]
}

#[test]
fn a_trace_is_written_and_read_again() {
    let part = Part::Pca9641;
    assert_eq!(write_trace(Pins::default(), part, &m1_events()).as_deref(), Ok(&M1[..]));
    let run = run(&M1).unwrap();
    assert_eq!((run.address, run.pins, run.part), (0x70, Pins::default(), part));
    assert_eq!(run.events, m1_events());
    assert_eq!(write_trace(run.pins, run.part, &run.events).as_deref(), Ok(&M1[..]));
    assert_eq!(write_trace([0; 4], part, &m1_events().map(Event::bytes)).as_deref(), Ok(&M1[..]));
    let mut buffer = [0xEE; 27];
    assert_eq!(write_trace_into([0; 4], part, &M1[7..23], &mut buffer), Ok(25));
    assert_eq!(buffer[..25], M1);
    assert_eq!(buffer[25..], [0xEE; 2]);
    assert_eq!(write_trace_into([0; 4], Part::Tpt29641, &M1[7..23], &mut buffer), Ok(25));
    assert_eq!((&buffer[..24], buffer[24]), (&M1[..24], 1));
}

/// M1 as it was before traces had a kind of part.
#[test]
fn an_old_trace_is_given_its_part() {
    let old = &M1[..23];
    assert_eq!(convert_trace(old).as_deref(), Ok(&M1[..]));
    let mut buffer = [0xEE; 27];
    assert_eq!(convert_trace_into(old, &mut buffer), Ok(25));
    assert_eq!(buffer[..25], M1);
    assert_eq!(buffer[25..], [0xEE; 2]);
    let mut short = [0xEE; 24];
    let cases = [
        (&M1[..], Refusal::BytesAfterEnd),
        (&M1[..22], Refusal::TraceCut),
        (&[3][..], Refusal::WrongCount),
        (&[4, 1, 0, 0, 0, 0, 0][..], Refusal::NoSuchStrapping),
        (&[4, 0, 0, 0, 0, 1, 16][..], Refusal::TooManyEvents),
        (old, Refusal::TooLittleRoom),
    ];
    for (bytes, refusal) in cases {
        assert_eq!(convert_trace_into(bytes, &mut short), Err(refusal), "{bytes:?}");
        assert_eq!(short, [0xEE; 24]);
    }
}

/// Each refusal of the writer, with all those that come after it wrong as well.
#[test]
fn the_writer_refuses_in_order() {
    let many = vec![6; 4 * (MOST_EVENTS + 1)];
    let cases: [([u8; 4], &[u8], Refusal); 4] = [
        ([1, 0, 0, 0], &[many.as_slice(), &[6]].concat(), Refusal::NoSuchStrapping),
        ([0; 4], &[many.as_slice(), &[6]].concat(), Refusal::TraceCut),
        ([0; 4], &many, Refusal::TooManyEvents),
        ([0; 4], &M1[7..23], Refusal::TooLittleRoom),
    ];
    for (pins, events, refusal) in cases {
        let mut buffer = [0xEE; 24];
        assert_eq!(write_trace_into(pins, Part::Tpt29641, events, &mut buffer), Err(refusal));
        assert_eq!(buffer, [0xEE; 24]);
    }
    let most = write_trace([0; 4], Part::Tpt29641, &[Event::Tick; MOST_EVENTS]).unwrap();
    assert_eq!((most.len(), run(&most).unwrap().events.len()), (MOST_TRACE, MOST_EVENTS));
}

/// A bus that is idle, then START, these bytes with a low ninth bit, and STOP. Master 1's bus stays
/// high.
fn capture(bytes: &[u8]) -> Vec<u8> {
    let mut samples = vec![0x0F, 0x0D];
    let mut clock = |bit: u8| samples.extend([0x0C | bit << 1, 0x0D | bit << 1]);
    for byte in bytes {
        (0..8).rev().for_each(|place| clock(byte >> place & 1));
        clock(0);
    }
    clock(0);
    samples.push(0x0F);
    samples
}

#[test]
fn a_capture_is_imported() {
    let samples = capture(&[0xE0, 1, 5]);
    assert_eq!(import_capture(&samples, 0x70).as_deref(), Ok(&m1_events()[..3]));
    assert_eq!(import_capture(&samples, 0x71), Ok(vec![]));
    assert_eq!(import_capture(&[], 0x70), Ok(vec![]));
    let mut events = [0xEE; 14];
    assert_eq!(import_capture_into(&samples, 0x70, &mut events), Ok(3));
    assert_eq!(events[..12], M1[7..19]);
    assert_eq!(events[12..], [0xEE; 2]);
}

/// Each refusal of the importer, with all those that come after it wrong as well.
#[test]
fn the_importer_refuses_in_order() {
    let samples = capture(&[0xE0, 1, 5]);
    let cut = &samples[..samples.len() - 5];
    let long = [cut, &vec![0x0C; MOST_SAMPLES]].concat();
    let cases: [(&[u8], u8, Refusal, u8); 5] = [
        (&long, 0x78, Refusal::TooManySamples, 13),
        (cut, 0x78, Refusal::AddressOutside, 11),
        (cut, 0x07, Refusal::AddressOutside, 11),
        (cut, 0x70, Refusal::ByteCut, 12),
        (&samples, 0x70, Refusal::TooLittleRoom, 9),
    ];
    for (samples, address, refusal, number) in cases {
        let mut events = [0xEE; 11];
        assert_eq!(import_capture_into(samples, address, &mut events), Err(refusal));
        assert_eq!(events, [0xEE; 11]);
        assert_eq!(refusal.number(), number);
        assert!(refusal.to_string().starts_with(&format!("refusal {number}: ")));
    }
}

/// Bytes that read as an event get its name, others stay as they are; the library says which.
#[test]
fn events_lose_no_byte() {
    for kind in 0..=11 {
        for a in [0, 1, 2, 255] {
            for b in [0, 1, 2, 255] {
                for c in [0, 1, 2, 255] {
                    let bytes = [kind, a, b, c];
                    let event = Event::from(bytes);
                    assert_eq!(event.bytes(), bytes);
                    let trace = write_trace([0; 4], Part::Pca9641, &[event]).unwrap();
                    let outcome = run(&trace).unwrap().answers[0].outcome;
                    let no_event =
                        matches!(outcome, Outcome::UnknownKind | Outcome::FieldOutOfRange);
                    assert_eq!(matches!(event, Event::Raw(_)), no_event, "{bytes:?}");
                }
            }
        }
    }
}

#[test]
fn an_answer_by_its_names() {
    let answer = Answer::from([0x04, 0x38, 0b1_10_01, 0b0110]);
    assert_eq!((answer.outcome, answer.byte_read), (Outcome::OutOfSequence, 0x38));
    assert_eq!((answer.owner, answer.connected), (Some(Master::Zero), Some(Master::One)));
    assert_eq!((answer.initialising, answer.int0, answer.int1), (true, false, true));
    assert_eq!((answer.scl, answer.sda), (true, false));
    assert_eq!(answer.ground, None);
    let idle = Answer::from([0, 0, 0, 0b1001]);
    assert_eq!((idle.owner, idle.connected, idle.initialising), (None, None, false));
    assert_eq!((idle.int0, idle.int1, idle.scl, idle.sda), (true, false, false, true));
    for (bus, ground, words) in [
        (0x20, Ground::Sole, "sole requester"),
        (0x5E, Ground::Priority, "priority"),
        (0x61, Ground::LastGranted, "last granted"),
    ] {
        assert_eq!(Answer::from([0, 0, bus, 0]).ground, Some(ground));
        assert_eq!((ground.number(), ground.to_string().as_str()), (bus >> 5, words));
    }
    for number in 0..=5 {
        let outcome = Outcome::of(number);
        assert_eq!((outcome.number(), outcome.is_refused()), (number, number > 1));
    }
}
