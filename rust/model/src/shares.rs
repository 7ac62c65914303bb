//! Seeded random totals and traces to add to them (document 02, #112), and what is seen when they are
//! added. The random cases say nothing about what is right.

use crate::damage::{damage, ALL_DAMAGES};
use crate::device::Device;
use crate::event::make::*;
use crate::event::{read_event, Event};
use crate::part::BOTH_KINDS;
use crate::rng::Rng;
use crate::seen::Happenings;
use crate::share::*;
use crate::trace::{read_trace, Trace};
use crate::traces::{trace, trace_of_kind};

/// Totals from which an addition starts: none, some, or about as many as fit.
pub fn any_numbers(rng: &mut Rng) -> [u64; NUMBERS] {
    let mut numbers = [0; NUMBERS];
    let top = rng.percent(30);
    for number in &mut numbers {
        let any = rng.below(1 << 31);
        *number = match rng.below(4) {
            0 => 0,
            1 => any,
            2 => any << 31 | any,
            _ => u64::MAX - rng.pick(&[0, 0, 1, 7, 400, any]),
        };
        *number = if top { *number } else { any % 5000 };
    }
    numbers[0] = any_traces(rng);
    numbers
}

/// How many traces there were: about the most at times, and also more than there can be.
fn any_traces(rng: &mut Rng) -> u64 {
    let any = rng.below(MOST_TRACES);
    let past = MOST_TRACES + rng.below(1 << 31);
    rng.pick(&[0, 0, any, any, any, MOST_TRACES - 1, MOST_TRACES, past, u64::MAX])
}

/// A trace to add: a random one, one in which both wait, or a damaged one.
pub fn any_trace(rng: &mut Rng) -> Vec<u8> {
    let length = rng.pick(&[0, 1, 40, 300, 900]);
    let length = rng.between(length / 2, length) as usize;
    let good = match rng.percent(25) {
        true => waiting_trace(rng),
        false => trace(rng.below(1 << 31), length),
    };
    if length == 0 || rng.percent(60) {
        return good;
    }
    let kind = rng.pick(&ALL_DAMAGES);
    damage(rng, &good, kind).trace
}

/// Both ask, one of them after a hold in which both wait; the waits are broken off and go on.
fn waiting_trace(rng: &mut Rng) -> Vec<u8> {
    let mut events = vec![];
    if rng.percent(60) {
        events.extend([command(0, 1), write(0, 0x10), general_call(0, 6)]);
    }
    for m in rng.pick(&[[0, 1], [1, 0]]) {
        let contr = rng.pick(&[0x01, 0x05, 0x0D, 0x25]);
        events.extend([command(m, 3), write(m, rng.pick(&[0, 1, 2, 30])), stop(m)]);
        events.extend([command(m, 1), write(m, contr), stop(m)]);
    }
    for _ in 0..rng.between(1, 6) {
        events.extend(vec![tick(); rng.pick(&[1, 2, 20, 36, 110])]);
        let m = rng.below(2) as u8;
        let contr = rng.pick(&[0x00, 0x01, 0x05]);
        let between = [
            vec![lines(1, 0, 1), lines(1, 1, 1)],
            vec![[6, 0, 1, 0]],
            vec![command(m, 1), write(m, contr), stop(m)],
            vec![command(m, 1), write(m, contr)],
        ];
        events.extend(between[rng.below(4) as usize].iter());
    }
    trace_of_kind(rng.pick(&BOTH_KINDS), [0; 4], &events)
}

/// The names of all sights that additions have to reach.
pub const SHARE_SIGHTS: &[&str] = &[
    // What a tick is counted as.
    "tick owned by 0",
    "tick owned by 1",
    "tick owned by none",
    "tick with 0 connected",
    "tick with 1 connected",
    "tick owned and not connected",
    "tick owned in an initialisation",
    "tick with 0 waiting for 1",
    "tick with 1 waiting for 0",
    "tick with a claimant waiting, its port open",
    "tick with both waiting",
    "TICK refused with 3, not counted",
    // The longest waits.
    "longest wait of 0 grows",
    "longest wait of 1 grows",
    "longest wait stays, this trace's is shorter",
    "two waits in one trace, the first one longer",
    "two waits in one trace, the last one longer",
    "wait that goes on past other events",
    "wait that a refused TICK does not break",
    // Whole traces.
    "trace of no events added",
    "trace with no TICK added",
    "trace of either kind of part, shared otherwise",
    "refused with 3, counted",
    "refused with 5, counted",
    "refused with 6, counted",
    "refused with 7, counted",
    "refused with 8, counted",
    "refused with 10, counted",
    // Bounds.
    "the last trace that is counted",
    "the last trace that is counted is refused",
    "trace past the most, good",
    "trace past the most, refused",
    "total that stops at the top",
    "total that comes to the top",
];

impl Happenings {
    /// Looks at a trace that is added to these totals.
    pub fn see_share(&mut self, bytes: &[u8], before: [u64; NUMBERS]) {
        let read = read_trace(bytes);
        let last = before[0] == MOST_TRACES - 1;
        if before[0] >= MOST_TRACES {
            self.note(read.is_ok(), "trace past the most, good");
            self.note(read.is_err(), "trace past the most, refused");
            return;
        }
        self.note(last, "the last trace that is counted");
        let own = match &read {
            Err(number) => {
                self.note(true, &format!("refused with {number}, counted"));
                self.note(last, "the last trace that is counted is refused");
                return;
            }
            Ok(trace) => self.see_shared(trace),
        };
        for m in [0, 1] {
            let (was, is) = (before[9 + m], own.longest[m]);
            self.note(is > was && was > 0, &format!("longest wait of {m} grows"));
            self.note(0 < is && is < was, "longest wait stays, this trace's is shorter");
        }
        for (was, more) in before.into_iter().zip(own.numbers()).take(9) {
            let sum = u128::from(was) + u128::from(more);
            self.note(sum > u128::from(u64::MAX), "total that stops at the top");
            let comes = sum == u128::from(u64::MAX) && more > 0;
            self.note(comes, "total that comes to the top");
        }
    }

    /// Looks at an accepted trace. Gives what it adds.
    fn see_shared(&mut self, trace: &Trace) -> Totals {
        let states = states_after_ticks(trace);
        states.iter().for_each(|device| self.see_tick(device));
        self.note(trace.events.is_empty(), "trace of no events added");
        let none = !trace.events.is_empty() && states.is_empty();
        self.note(none, "trace with no TICK added");
        let refused = trace.events.iter().any(|event| event[0] == 6 && *event != tick());
        self.note(refused, "TICK refused with 3, not counted");
        for m in [0, 1] {
            self.see_waits(&states, m);
        }
        self.see_waits_between(trace);
        let own = totals_of(&states);
        let of_other = |kind| totals_of(&states_after_ticks(&Trace { kind, ..trace.clone() }));
        let otherwise = BOTH_KINDS.into_iter().any(|kind| of_other(kind).owned != own.owned);
        self.note(otherwise, "trace of either kind of part, shared otherwise");
        own
    }

    fn see_tick(&mut self, device: &Device) {
        let owner = device.owner();
        let who = owner.map_or("none".to_string(), |m| m.to_string());
        self.note(true, &format!("tick owned by {who}"));
        let connected = device.closed_for();
        connected.into_iter().for_each(|m| self.note(true, &format!("tick with {m} connected")));
        self.note(owner.is_some() && connected.is_none(), "tick owned and not connected");
        self.note(device.initialising().is_some(), "tick owned in an initialisation");
        let waiting = [0, 1].map(|m| waits(device, m));
        self.note(waiting == [true; 2], "tick with both waiting");
        for m in [0, 1].into_iter().filter(|m| waiting[*m]) {
            let partner = 1 - m;
            if owner.is_some() {
                self.note(true, &format!("tick with {m} waiting for {partner}"));
            } else if device.hold == 0 && device.claimant() == Some(m) {
                self.note(true, "tick with a claimant waiting, its port open");
            }
        }
    }

    fn see_waits(&mut self, states: &[Device], m: usize) {
        let waits = states.split(|device| !waits(device, m)).map(|wait| wait.len());
        let waits: Vec<usize> = waits.filter(|ticks| *ticks > 0).collect();
        if let [first, .., last] = waits[..] {
            self.note(first > last, "two waits in one trace, the first one longer");
            self.note(first < last, "two waits in one trace, the last one longer");
        }
    }

    /// Looks for a wait that has other events than TICKs in it.
    fn see_waits_between(&mut self, trace: &Trace) {
        let mut device = Device::power_up_of(trace.kind);
        let mut waited = [false; 2];
        let mut between = None;
        for &event in &trace.events {
            device.step(event);
            if read_event(event) == Ok(Event::Tick) {
                let waits = [0, 1].map(|m| waits(&device, m));
                let goes_on = [0, 1].into_iter().any(|m| waited[m] && waits[m]);
                let refused = between.is_some_and(|kind| kind == 6);
                self.note(goes_on && refused, "wait that a refused TICK does not break");
                let other = between.is_some_and(|kind| kind != 6);
                self.note(goes_on && other, "wait that goes on past other events");
                (waited, between) = (waits, None);
            } else {
                between = Some(event[0]);
            }
        }
    }
}
