//! All orders of two start-up scripts (document 02, #109): what is listed, in which sequence, up to
//! which limit, and each refusal. The many cases are in `rust/compare`.

#![cfg(feature = "alloc")]

use gunwaleish::{
    boundary, list_orders, list_orders_into, run, write_trace, Bus, Event, Ground, Master, Part,
    Pins, Refusal, MOST_ORDERS, MOST_SCRIPT,
};

/// A controller asks for the bus.
fn asks(master: Master) -> Vec<Event> {
    vec![
        Event::Command { master, code: 1 },
        Event::Write { master, value: 1 },
        Event::Stop { master },
    ]
}

/// The six events of an order sheet for one controller.
fn starts(master: Master, reserve: u8) -> Vec<Event> {
    let rt = [
        Event::Command { master, code: 3 },
        Event::Write { master, value: reserve },
        Event::Stop { master },
    ];
    [&rt[..], &asks(master)].concat()
}

fn bytes(events: &[Event]) -> Vec<u8> {
    events.iter().flat_map(|event| event.bytes()).collect()
}

/// The last answer of a trace of these events, as the trace call gives it.
fn at_end(events: &[Event]) -> Bus {
    let pins = Pins::of_address(0x70).unwrap();
    let answers = run(&write_trace(pins, Part::Pca9641, events).unwrap()).unwrap().answers;
    let last = answers.last().unwrap();
    let mut byte = last.owner.map_or(0, |master| 1 + master.number());
    byte |= last.connected.map_or(0, |master| 1 + master.number()) << 2;
    byte |= u8::from(last.initialising) << 4;
    byte |= last.ground.map_or(0, Ground::number) << 5;
    Bus::from(byte)
}

/// The events of all orders, in the request's sequence.
fn orders(script0: &[Event], script1: &[Event]) -> Vec<Vec<Event>> {
    let mut all = vec![];
    let mut with = |first: Event, rest: Vec<Vec<Event>>| {
        all.extend(rest.into_iter().map(|rest| [&[first], &rest[..]].concat()));
    };
    if let Some((first, rest)) = script0.split_first() {
        with(*first, orders(rest, script1));
    }
    if let Some((first, rest)) = script1.split_first() {
        with(*first, orders(script0, rest));
    }
    match script0.is_empty() && script1.is_empty() {
        true => vec![vec![]],
        false => all,
    }
}

/// Each order's byte is that of a trace of its own.
#[test]
fn each_order_is_a_trace_of_its_own() {
    let connects = [
        Event::Command { master: Master::One, code: 1 },
        Event::Write { master: Master::One, value: 0x0D },
        Event::Tick,
        Event::Stop { master: Master::One },
        Event::Pulse { sda: true },
    ];
    let pairs: [[Vec<Event>; 2]; 3] = [
        [starts(Master::Zero, 1), starts(Master::One, 20)],
        [starts(Master::Zero, 1), connects.to_vec()],
        [connects.to_vec(), vec![Event::Reset, Event::Raw([0xFF; 4])]],
    ];
    for [script0, script1] in pairs {
        let listed = list_orders(&script0, &script1, usize::MAX).unwrap();
        let orders = orders(&script0, &script1);
        assert_eq!(listed.len(), orders.len());
        for (bus, order) in listed.iter().zip(&orders) {
            assert_eq!(*bus, at_end(order), "{order:?}");
        }
    }
}

#[test]
fn two_start_up_scripts() {
    let all = list_orders(&starts(Master::Zero, 50), &starts(Master::One, 20), usize::MAX).unwrap();
    assert_eq!(all.len(), MOST_ORDERS);
    let owned = |master| all.iter().filter(|bus| bus.owner == Some(master)).count();
    assert_eq!(Master::BOTH.map(owned), [462, 462]);
    assert!(all.iter().all(|bus| bus.ground == Some(Ground::Sole) && bus.connected.is_none()));
}

#[test]
fn two_empty_scripts_have_one_order() {
    let none: [Event; 0] = [];
    assert_eq!(list_orders(&none, &none, 5), Ok(vec![Bus::from(0)]));
    assert_eq!(list_orders(&none, &none, 0), Ok(vec![]));
    let mut listed = [0xEE; 3];
    assert_eq!(list_orders_into(&[], &[], 5, &mut listed), Ok(1));
    assert_eq!(listed, [0, 0xEE, 0xEE]);
}

/// The front of what there is without a limit, and the bytes past it stay.
#[test]
fn the_limit_cuts_the_list() {
    let (script0, script1) = (bytes(&asks(Master::Zero)), bytes(&asks(Master::One)));
    let mut all = [0; 20];
    assert_eq!(list_orders_into(&script0, &script1, 20, &mut all), Ok(20));
    for limit in [0, 1, 7, 19, 20, 21, usize::MAX] {
        let count = limit.min(20);
        let mut listed = vec![0xEE; count + 3];
        assert_eq!(list_orders_into(&script0, &script1, limit, &mut listed), Ok(count));
        assert_eq!(listed, [&all[..count], &[0xEE; 3]].concat());
        assert_eq!(
            boundary::list_orders(&script0, &script1, limit, &mut listed),
            256 * count as u64
        );
    }
}

/// 5, 6, 9, in this order; nothing is written.
#[test]
fn refusals() {
    let cases = [
        ([25, 0], 1, 1, Refusal::TraceCut, 5),
        ([28, 3], 1, 0, Refusal::TraceCut, 5),
        ([28, 0], 1, 0, Refusal::LongScript, 6),
        ([24, 400], 0, 0, Refusal::LongScript, 6),
        ([24, 24], 924, 923, Refusal::TooLittleRoom, 9),
        ([24, 24], usize::MAX, 923, Refusal::TooLittleRoom, 9),
        ([0, 0], 1, 0, Refusal::TooLittleRoom, 9),
    ];
    for (lengths, limit, room, refusal, number) in cases {
        let [script0, script1] = lengths.map(|length: usize| vec![6; length]);
        let mut listed = vec![0xEE; room];
        let said = list_orders_into(&script0, &script1, limit, &mut listed);
        assert_eq!((said, listed), (Err(refusal), vec![0xEE; room]));
        assert_eq!(refusal.number(), number);
        assert!(refusal.to_string().starts_with(&format!("refusal {number}: ")));
        let mut listed = vec![0xEE; room];
        assert_eq!(boundary::list_orders(&script0, &script1, limit, &mut listed), number.into());
    }
    assert_eq!(list_orders(&[Event::Tick; MOST_SCRIPT + 1], &[], 1), Err(Refusal::LongScript));
    assert_eq!(
        Refusal::LongScript.to_string(),
        "refusal 6: a start-up script has more than six events"
    );
}
