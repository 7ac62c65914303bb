//! The bus share over many traces (document 02, #112).

#![cfg(feature = "alloc")]

use std::thread;

use gunwaleish::{
    boundary, write_trace, Event, Master, Part, Pins, Refusal, Totals, MOST_EVENTS, MOST_TRACES,
    TOTAL_COUNT,
};

const M0: Master = Master::Zero;
const M1: Master = Master::One;

fn ask(master: Master) -> [Event; 3] {
    [
        Event::Command { master, code: 1 },
        Event::Write { master, value: 0x05 },
        Event::Stop { master },
    ]
}

/// Master 0 is granted the bus, master 1 asks too, and then so many ticks pass.
fn both_ask(ticks: usize) -> Vec<u8> {
    let mut events = [ask(M0), ask(M1)].concat();
    events.extend(vec![Event::Tick; ticks]);
    write_trace(Pins::of_address(0x70).unwrap(), Part::Pca9641, &events).unwrap()
}

fn after(traces: &[Vec<u8>]) -> Totals {
    let mut totals = Totals::new();
    traces.iter().for_each(|trace| totals.add(trace).unwrap());
    totals
}

#[test]
fn ticks_are_counted_for_the_state_after_them() {
    let totals = after(&[both_ask(10), both_ask(4)]);
    assert_eq!((totals.traces(), totals.ticks()), (2, 14));
    assert_eq!((totals.owned(M0), totals.owned(M1), totals.unowned()), (14, 0, 0));
    assert_eq!((totals.connected(M0), totals.connected(M1)), (14, 0));
    assert_eq!((totals.waited(M0), totals.waited(M1)), (0, 14));
    assert_eq!((totals.longest(M0), totals.longest(M1)), (0, 10));
    assert_eq!(Totals::from_numbers(*totals.numbers()), totals);
}

#[test]
fn a_refused_trace_is_counted_under_its_number_alone() {
    let good = both_ask(3);
    let mut wrong_pins = good.clone();
    wrong_pins[1] = 4;
    let mut long = good.clone();
    long[5..7].copy_from_slice(&(MOST_EVENTS as u16 + 1).to_le_bytes());
    let mut no_part = good.clone();
    *no_part.last_mut().unwrap() = 2;
    let refused = [
        (no_part, Refusal::NoSuchPart),
        (good[..good.len() - 1].to_vec(), Refusal::TraceCut),
        (long, Refusal::TooManyEvents),
        ([&good[..], &[0]].concat(), Refusal::BytesAfterEnd),
        (wrong_pins, Refusal::NoSuchStrapping),
        (good[1..].to_vec(), Refusal::WrongCount),
    ];
    let mut totals = after(&[good]);
    for (count, (trace, refusal)) in refused.into_iter().enumerate() {
        let before = totals;
        assert_eq!(totals.add(&trace), Err(refusal));
        assert_eq!((totals.traces(), totals.refused(refusal.number())), (2 + count as u64, 1));
        assert_eq!(totals.numbers()[1..11], before.numbers()[1..11]);
    }
    assert_eq!((totals.refused(9), totals.refused(4)), (0, 0));
}

#[test]
fn past_the_most_traces_totals_are_kept() {
    let mut numbers = [5; TOTAL_COUNT];
    numbers[0] = MOST_TRACES - 1;
    let mut totals = Totals::from_numbers(numbers);
    totals.add(&both_ask(2)).unwrap();
    assert_eq!((totals.traces(), totals.ticks()), (MOST_TRACES, 7));
    let kept = totals;
    assert_eq!(totals.add(&both_ask(2)), Err(Refusal::TooManyTraces));
    assert_eq!(totals.add(&[]), Err(Refusal::TooManyTraces));
    assert_eq!(totals.join(&after(&[both_ask(1)])), Err(Refusal::TooManyTraces));
    assert_eq!(totals, kept);
    assert_eq!(totals.join(&Totals::new()), Ok(()));
    assert_eq!(totals, kept);
}

#[test]
fn made_up_totals_do_not_overflow() {
    let top = Totals::from_numbers([u64::MAX; TOTAL_COUNT]);
    let mut totals = top;
    assert_eq!(totals.join(&top), Err(Refusal::TooManyTraces));
    let mut numbers = [u64::MAX; TOTAL_COUNT];
    numbers[0] = 1;
    let mut totals = Totals::from_numbers(numbers);
    totals.add(&both_ask(2)).unwrap();
    assert_eq!((totals.traces(), totals.ticks()), (2, u64::MAX));
    totals.join(&Totals::from_numbers(numbers)).unwrap();
    assert_eq!((totals.traces(), totals.waited(M1)), (3, u64::MAX));
}

#[test]
fn another_length_is_refused_with_9() {
    let trace = both_ask(1);
    for length in [0, 1, 16, 18, 34] {
        let mut totals = vec![7; length];
        assert_eq!(boundary::share_add(&trace, &mut totals), 9);
        assert_eq!(boundary::share_join(&[0; TOTAL_COUNT], &mut totals), 9);
        assert_eq!(totals, vec![7; length]);
        let mut whole = [7; TOTAL_COUNT];
        assert_eq!(boundary::share_join(&totals, &mut whole), 9);
        assert_eq!(whole, [7; TOTAL_COUNT]);
    }
}

/// Counted in four threads and joined, the totals are those of one thread.
#[test]
fn threads_count_alike() {
    let traces: Vec<Vec<u8>> = (0..200).map(|ticks| both_ask(ticks * 3)).collect();
    let counts: Vec<Totals> = thread::scope(|scope| {
        let shares: Vec<_> =
            traces.chunks(60).map(|share| scope.spawn(move || after(share))).collect();
        shares.into_iter().map(|share| share.join().unwrap()).collect()
    });
    let mut joined = Totals::new();
    counts.iter().rev().for_each(|count| joined.join(count).unwrap());
    assert_eq!(joined, after(&traces));
}
