//! The bus share report (document 02, #112): what a tick is counted as, the totals over many traces,
//! and the text of the report.

mod bench;

use std::slice::from_ref;

use bench::*;
use model::happenings::Happenings;
use model::report::{input_of, pieces, totals_of_input, Piece};
use model::rng::Rng;
use model::share::*;
use model::shares::*;
use model::traces::{trace, trace_of, trace_of_kind};
use model::{read_trace, share_report};

type Events = Vec<[u8; 4]>;

/// COMMAND, WRITE and STOP of one register.
fn put(m: u8, register: u8, value: u8) -> Events {
    vec![command(m, register), write(m, value), stop(m)]
}

fn ticks_of(count: usize) -> Events {
    vec![tick(); count]
}

fn good(events: &[Events]) -> Vec<u8> {
    trace_of([0; 4], &events.concat())
}

/// The totals over these traces.
fn totals(traces: &[Vec<u8>]) -> Totals {
    let mut totals = Totals::default();
    traces.iter().for_each(|trace| {
        totals.add(trace);
    });
    totals
}

/// The totals of one trace of these events.
fn shares(events: &[Events]) -> Totals {
    totals(&[good(events)])
}

/// "A reserve of n granted at a STOP shows n - 1 owned ticks": it is lost in the n-th.
#[test]
fn a_reserve_shows_one_tick_less() {
    for reserve in [1, 2, 50, 255] {
        let shares = shares(&[put(0, 3, reserve), put(0, 1, 0x01), ticks_of(300)]);
        assert_eq!(shares.owned, [u64::from(reserve) - 1, 0]);
        assert_eq!((shares.ticks, shares.unowned), (300, 301 - u64::from(reserve)));
        assert_eq!((shares.connected, shares.waited), ([0; 2], [0; 2]));
    }
}

/// Box 14 left empty: master 0 owns, and its partner waits in every tick.
#[test]
fn the_partner_waits() {
    let shares = shares(&[put(0, 1, 0x05), put(1, 1, 0x01), ticks_of(300)]);
    assert_eq!((shares.owned, shares.unowned), ([300, 0], 0));
    assert_eq!((shares.connected, shares.waited), ([300, 0], [0, 300]));
    assert_eq!(shares.longest, [0, 300]);
}

/// "Waited: its own LOCK_REQ stands and it is not granted": also with nobody granted, for an open
/// port or a hold, and both of them at one tick.
#[test]
fn who_waits() {
    let asks = |m| vec![command(m, 1), write(m, 1)];
    let shares = |events: &[Events]| {
        let Totals { owned, unowned, waited, .. } = shares(events);
        (owned, unowned, waited)
    };
    assert_eq!(shares(&[asks(1), ticks_of(7)]), ([0; 2], 7, [0, 7]));
    assert_eq!(shares(&[asks(1), asks(0), ticks_of(7)]), ([0; 2], 7, [7, 7]));
    // The hold lasts 35 ticks, and the grant is made in the last of them.
    let hold = vec![command(0, 1), write(0, 0x10), general_call(0, 6)];
    let both = [hold, put(0, 1, 1), put(1, 1, 1), ticks_of(40)];
    assert_eq!(shares(&both), ([6, 0], 34, [34, 40]));
    // A LOCK_REQ that is cleared waits no more.
    let ends = [put(0, 1, 1), put(1, 1, 1), ticks_of(3), put(1, 1, 0), ticks_of(4)];
    assert_eq!(shares(&ends), ([7, 0], 0, [0, 3]));
}

/// "Connected: the closed switch", which is apart in an initialisation.
#[test]
fn who_is_connected() {
    let shares = shares(&[put(1, 1, 0x0D), ticks_of(5), vec![pulse(1)], ticks_of(3)]);
    assert_eq!((shares.owned, shares.connected), ([0, 8], [0, 3]));
}

/// "Accepted TICKs only, the state after each."
#[test]
fn accepted_ticks_only() {
    let refused = vec![[6, 1, 0, 0], [6, 0, 0, 9], [16, 0, 0, 0]];
    let shares = shares(&[refused.clone(), ticks_of(2), refused, put(0, 1, 1), ticks_of(1)]);
    assert_eq!((shares.ticks, shares.owned, shares.unowned), (3, [1, 0], 2));
}

/// "Owned by 0, owned by 1 and owned by none add up to the TICK events."
#[test]
fn owned_by_each_and_none_are_all_ticks() {
    let mut all = Totals::default();
    for seed in 0..300 {
        let bytes = trace(seed, 1000);
        let own = totals(from_ref(&bytes));
        assert_eq!(own.owned[0] + own.owned[1] + own.unowned, own.ticks);
        let events = read_trace(&bytes).unwrap().events;
        let ticks = events.iter().filter(|event| **event == tick()).count();
        assert_eq!((own.ticks, own.traces), (ticks as u64, 1));
        assert!((0..2).all(|m| own.connected[m] <= own.owned[m]));
        assert!((0..2).all(|m| own.longest[m] <= own.waited[m]));
        assert!((0..2).all(|m| own.waited[m] + own.owned[m] <= own.ticks));
        assert_eq!(all.add(&bytes), 0);
    }
    assert_eq!(all.owned[0] + all.owned[1] + all.unowned, all.ticks);
    assert!(all.numbers()[..11].iter().all(|number| *number > 0));
}

/// The longest wait is of neighbours in the list of ticks: other events do not break it, a tick in
/// which the controller does not wait does, and so does the end of the trace.
#[test]
fn the_longest_wait() {
    let asks = [put(0, 1, 1), put(1, 1, 1)].concat();
    let ends = [put(1, 1, 0), ticks_of(1)].concat();
    let asks_again = put(1, 1, 1);
    let longest = |events: &[Events]| shares(events).longest;
    let wait = |count| ticks_of(count);
    assert_eq!(longest(&[asks.clone(), wait(5)]), [0, 5]);
    let broken = [asks.clone(), wait(5), ends.clone(), asks_again.clone(), wait(3)];
    assert_eq!(longest(&broken), [0, 5]);
    let broken = [asks.clone(), wait(3), ends, asks_again.clone(), wait(5)];
    assert_eq!(longest(&broken), [0, 5]);
    // It gives up and asks again between two ticks: both of them find it waiting.
    let between = [asks.clone(), wait(3), put(1, 1, 0), asks_again, vec![[6, 1, 0, 0]], wait(5)];
    assert_eq!(longest(&between), [0, 8]);
    let one = good(&[asks.clone(), wait(5)]);
    let two = totals(&[one.clone(), good(&[asks, wait(4)]), one]);
    assert_eq!((two.longest, two.waited), ([0, 5], [0, 14]));
}

/// "Each trace from power-up", of its own kind: the idle timer ends a grant at 101 ticks or at 151.
#[test]
fn each_trace_starts_anew() {
    let events = [put(0, 1, 0x21), ticks_of(200)].concat();
    let of = |kind| trace_of_kind(kind, [0; 4], &events);
    let owned = |traces: &[Vec<u8>]| totals(traces).owned[0];
    assert_eq!(owned(&[of(Kind::Pca9641)]), 100);
    assert_eq!(owned(&[of(Kind::Tpt29641)]), 150);
    let idle = good(&[ticks_of(10)]);
    assert_eq!(owned(&[of(Kind::Pca9641), idle, of(Kind::Tpt29641)]), 250);
}

/// "A refused trace adds nothing except one to a count of refused traces for its number."
#[test]
fn refused_traces_are_counted_by_their_number() {
    let m1 = good(&[put(0, 1, 5), ticks_of(3)]);
    let change = |at: usize, byte: u8| {
        let mut trace = m1.clone();
        trace[at] = byte;
        trace
    };
    let end = m1.len() - 1;
    let refused = [
        (3, change(end, 2)),
        (5, m1[..end].to_vec()),
        (5, vec![]),
        (6, change(6, 0xFF)),
        (7, [&m1[..], &[0]].concat()),
        (8, change(1, 4)),
        (10, change(0, 3)),
        (10, change(end - 1, 0)),
    ];
    let mut all = Totals::default();
    for (number, trace) in &refused {
        assert_eq!(all.add(trace), *number);
    }
    assert_eq!(all.numbers(), [8, 0, 0, 0, 0, 0, 0, 0, 0, 0, 0, 1, 2, 1, 1, 1, 2]);
    assert_eq!((all.add(&m1), all.ticks, all.owned), (0, 3, [3, 0]));
    assert_eq!((all.traces, all.refused.iter().sum::<u64>()), (9, 8));
}

/// "6 past 65,535 traces, refused ones included, totals kept"; "nothing counted, whatever the trace".
#[test]
fn the_most_traces() {
    let m1 = good(&[put(0, 1, 5), ticks_of(3)]);
    for traces in [MOST_TRACES, MOST_TRACES + 1, u64::MAX] {
        for trace in [&m1[..], &[], &[4]] {
            let mut all = Totals { traces, ticks: 9, ..Totals::default() };
            assert_eq!(all.add(trace), 6);
            assert_eq!(all, Totals { traces, ticks: 9, ..Totals::default() });
        }
    }
    let mut all = Totals { traces: MOST_TRACES - 1, ..Totals::default() };
    assert_eq!((all.add(&m1), all.traces, all.ticks), (0, MOST_TRACES, 3));
    let mut all = Totals { traces: MOST_TRACES - 1, ..Totals::default() };
    assert_eq!((all.add(&[]), all.traces, all.refused[1]), (5, MOST_TRACES, 1));
}

/// The row of 17 numbers, and another length of it.
#[test]
fn totals_in_a_row_of_numbers() {
    let m1 = good(&[put(0, 1, 5), put(1, 1, 1), ticks_of(3)]);
    for length in (0..40).filter(|length| *length != NUMBERS) {
        let mut row = vec![7; length];
        assert_eq!(model::share_add(&m1, &mut row), 9);
        assert_eq!(row, vec![7; length]);
    }
    let mut row = [0; NUMBERS];
    assert_eq!(model::share_add(&m1, &mut row), 0);
    assert_eq!(row, [1, 3, 3, 0, 0, 3, 0, 0, 3, 0, 3, 0, 0, 0, 0, 0, 0]);
    assert_eq!(model::share_add(&m1[..9], &mut row), 5);
    assert_eq!(row, [2, 3, 3, 0, 0, 3, 0, 0, 3, 0, 3, 0, 1, 0, 0, 0, 0]);
    for number in 0..NUMBERS as u64 {
        let row: [u64; NUMBERS] = std::array::from_fn(|at| u64::from(at as u64 == number));
        assert_eq!(Totals::of(row).numbers(), row);
    }
}

/// Each sum stops at the top of 64 bits; a longest wait is no sum.
#[test]
fn sums_stop_at_the_top() {
    let m1 = good(&[put(0, 1, 5), put(1, 1, 1), ticks_of(3)]);
    for below in 0..6 {
        let mut row = [u64::MAX - below; NUMBERS];
        row[0] = 5;
        assert_eq!(model::share_add(&m1, &mut row), 0);
        let sum = |more: u64| (u64::MAX - below).saturating_add(more);
        let shared = [6, sum(3), sum(3), sum(0), sum(0), sum(3), sum(0), sum(0), sum(3)];
        assert_eq!(row[..9], shared);
        assert_eq!(row[9..], [u64::MAX - below; 8]);
        assert_eq!(model::share_add(&[3], &mut row), 10);
        assert_eq!(row[16], sum(1));
    }
}

/// The input: "traces, each after its two-byte low-first length"; "input that ends inside a length or
/// a trace is one trace refused with 5; a length of 0 is one too".
#[test]
fn the_pieces_of_an_input() {
    assert_eq!(pieces(&[]), []);
    assert_eq!(pieces(&[9]), [Piece::Cut]);
    assert_eq!(pieces(&[2, 0]), [Piece::Cut]);
    assert_eq!(pieces(&[2, 0, 3]), [Piece::Cut]);
    assert_eq!(pieces(&[2, 0, 3, 4]), [Piece::Whole(&[3, 4])]);
    let three = pieces(&[0, 0, 1, 0, 9, 0]);
    assert_eq!(three, [Piece::Whole(&[]), Piece::Whole(&[9]), Piece::Cut]);
    let long = [&[0, 1][..], &[5; 256]].concat();
    assert_eq!(pieces(&long), [Piece::Whole(&[5; 256])]);
    // What is there of a cut trace is not looked at: 10 would be told of its first byte.
    let refused = |input: &[u8]| totals_of_input(input).0.refused;
    assert_eq!(refused(&[9, 0, 3]), [0, 1, 0, 0, 0, 0]);
    assert_eq!(refused(&[1, 0, 3]), [0, 0, 0, 0, 0, 1]);
    assert_eq!(refused(&[0, 0, 0, 0, 7]), [0, 3, 0, 0, 0, 0]);
}

/// "Prints a line a controller: number, owned, connected, waited, in decimal with single spaces."
#[test]
fn the_text_of_the_report() {
    assert_eq!(share_report(&[]), "0 0 0 0\n1 0 0 0\n");
    assert_eq!(share_report(&[0, 0, 1]), "0 0 0 0\n1 0 0 0\n");
    let one = good(&[put(0, 1, 0x05), put(1, 1, 0x01), ticks_of(1200)]);
    let other = good(&[put(1, 1, 0x01), ticks_of(34)]);
    let input = input_of(&[one.clone(), vec![], other, vec![4, 9]]);
    assert_eq!(share_report(&input), "0 1200 1200 0\n1 34 0 1200\n");
    let cut = [&input[..], &[200, 0], &one[..100]].concat();
    assert_eq!(share_report(&cut), "0 1200 1200 0\n1 34 0 1200\n");
}

/// "Printed are the two lines, and R6 after them past 65,535", once.
#[test]
fn the_report_past_the_most_traces() {
    let one = good(&[put(0, 1, 0x05), ticks_of(2)]);
    let mut input = input_of(&vec![vec![]; 65_534]);
    input.extend(input_of(from_ref(&one)));
    assert_eq!(share_report(&input), "0 2 2 0\n1 0 0 0\n");
    // A trace that is itself refused with 6 is counted like any other.
    let big = input_of(&[vec![4, 0, 0, 0, 0, 0xFF, 0xFF]]);
    let at_last = [&input[2..], &big].concat();
    assert_eq!(share_report(&at_last), "0 2 2 0\n1 0 0 0\n");
    let (sums, past) = totals_of_input(&at_last);
    assert_eq!((sums.traces, sums.refused[2], past), (65_535, 1, false));
    for more in [&input_of(&[one])[..], &[0, 0], &big, &[9], &[9, 0, 4], &[0, 0, 0, 0, 0, 0]] {
        let past = [&input[..], more].concat();
        assert_eq!(share_report(&past), "0 2 2 0\n1 0 0 0\nR6\n");
        assert_eq!(totals_of_input(&past).0, totals_of_input(&input).0);
    }
}

/// The random traces and totals come to everything.
#[test]
fn random_additions_reach_everything() {
    let mut sights = Happenings::default();
    for seed in 0..4000 {
        let rng = &mut Rng::new(seed);
        let bytes = any_trace(rng);
        sights.see_share(&bytes, any_numbers(rng));
    }
    let missing: Vec<_> = SHARE_SIGHTS.iter().filter(|name| sights.count(name) == 0).collect();
    assert!(missing.is_empty(), "never: {missing:?}");
    let unnamed: Vec<_> = sights.counted().filter(|name| !SHARE_SIGHTS.contains(name)).collect();
    assert!(unnamed.is_empty(), "without a name: {unnamed:?}");
}

/// Traces counted in two places and joined are counted as in one; past the most, totals are kept.
#[test]
fn joined_totals_are_those_of_all() {
    let rng = &mut Rng::new(112);
    let traces: Vec<Vec<u8>> = (0..40).map(|_| any_trace(rng)).collect();
    let mut joined = totals(&traces[..17]);
    assert_eq!(joined.join(&totals(&traces[17..])), 0);
    assert_eq!(joined, totals(&traces));
    let full = Totals { traces: MOST_TRACES - 39, ..Totals::default() };
    let kept = joined.clone();
    assert_eq!((joined.join(&full), &joined), (6, &kept));
    let last = Totals { traces: MOST_TRACES - 40, ..Totals::default() };
    assert_eq!((joined.join(&last), joined.traces), (0, MOST_TRACES));
}
