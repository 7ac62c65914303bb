//! A controller, m, that sends nothing from some point on, while its partner, p, and the outside lines do
//! anything short of a reset: when p is never in. Tried on random runs of both kinds of part, and on every
//! run with short reserves.

use std::collections::HashSet;

mod bench;
use bench::stalled::*;
use bench::*;
use model::crashes::{crashed, fall_idle, silence_phrase};
use model::device::{BOTH_HIGH, LOCK_REQ};
use model::image::image_of;
use model::part::BOTH_KINDS;
use model::rng::Rng;

/// What keeps p out for ever, whatever it does short of a reset.
#[derive(Clone, Copy, Debug, PartialEq)]
enum Bar {
    /// "m claims with its port open".
    OpenPort,
    /// m "claims or owns with RT 00h and the timer off".
    NoEnd,
    /// m owns and pulls a line low by its STATUS bits.
    Drives,
}

const BARS: [Bar; 3] = [Bar::OpenPort, Bar::NoEnd, Bar::Drives];

/// All the bars that stand.
fn bars(device: &Device, m: usize) -> Vec<Bar> {
    let stands = |bar: &Bar| match bar {
        Bar::OpenPort => claims(device, m) && !at_rest(device, m),
        Bar::NoEnd => device.claimant() == Some(m) && !can_end(device, m),
        Bar::Drives => owns(device, m) && device.drives != BOTH_HIGH,
    };
    BARS.into_iter().filter(stands).collect()
}

/// What p can do if it does not own already: let a hold end, ask and come to rest, let the bus fall idle,
/// and wait.
fn gets_in(device: &Device, p: usize) -> bool {
    let mut device = device.clone();
    let mut events = vec![tick(); device.hold as usize];
    if !device.masters[p].has(LOCK_REQ) {
        events.extend([command(p as u8, 1), write(p as u8, LOCK_REQ), stop(p as u8)]);
    } else if !at_rest(&device, p) {
        events.push(stop(p as u8));
    }
    events.extend(fall_idle());
    for event in events {
        if owns(&device, p) {
            return true;
        }
        run(&mut device, &[event]);
    }
    turn(&device, p, figure(&device, 1 - p)).is_some()
}

/// Whether p owned at some time in a random run in which m is silent and no reset comes. At the end the
/// bus mostly falls idle for as long as m could keep it.
fn gets_in_somehow(rng: &mut Rng, device: &Device, p: usize) -> bool {
    let mut device = device.clone();
    for _ in 0..rng.between(1, 12) {
        for event in silence_phrase(rng, &device, p as u8) {
            device.step(event);
            if owns(&device, p) {
                return true;
            }
        }
    }
    gets_in(&device, p)
}

/// "p free to do anything short of a reset: p is never in exactly if m claims with its port open, or claims
/// or owns with RT 00h and the timer off", or, beyond these, m owns and pulls a line low. The state is any
/// that a run reaches: p need not ask there, nor be at rest.
#[test]
fn crash_exact_whatever_the_partner_does() {
    let (mut alone, mut barred, mut free) = ([0; 3], 0, 0);
    for seed in 0..40_000 {
        let rng = &mut Rng::new(seed);
        let device = crashed(rng);
        let m = rng.below(2) as usize;
        let standing = bars(&device, m);
        if standing.is_empty() {
            assert!(gets_in(&device, 1 - m), "m {m}: {device:?}");
            free += 1;
            continue;
        }
        assert!(!gets_in_somehow(rng, &device, 1 - m), "m {m}, {standing:?}: {device:?}");
        barred += 1;
        for (place, bar) in BARS.iter().enumerate() {
            alone[place] += u32::from(standing == [*bar]);
        }
    }
    println!("{BARS:?} alone: {alone:?} of {barred}, free {free}");
    assert!(free > 5000 && alone.iter().all(|&count| count > 100));
}

/// Every run of any length of p's requests, withdrawals, drives and STOPs, of all levels, pulses and ticks,
/// m being silent. Gives whether p owns in one of them, and the points.
fn every_run(start: &Device, p: usize) -> (bool, usize) {
    let name = p as u8;
    let mut events = vec![tick(), pulse(0), pulse(1), stop(name), read(name)];
    for at in [1, 2] {
        events.push(command(name, at));
    }
    events.extend([0x00, 0x01, 0x05, 0x21, 0xC0].map(|value| write(name, value)));
    events.extend([[0, 0], [0, 1], [1, 0], [1, 1]].map(|[scl, sda]| lines(scl, sda, 1)));
    let mut seen = HashSet::new();
    let mut left = vec![start.clone()];
    while let Some(device) = left.pop() {
        if owns(&device, p) {
            return (true, seen.len());
        }
        for &event in &events {
            let mut next = device.clone();
            next.step(event);
            // These two move no grant.
            (next.scl_low_count, next.sda_low_count) = (next.scl_low_count.min(35), 0);
            next.masters.iter_mut().for_each(|own| own.int_status = 0);
            if seen.insert(image_of(&next)) {
                left.push(next);
            }
        }
    }
    (false, seen.len())
}

/// m falls silent after these events, with p about to ask.
fn silent_after(kind: Kind, m: u8, events: &[[u8; 4]]) -> Device {
    let mut device = Device::power_up_of(kind);
    run(&mut device, &[command(m, 3)]);
    run(&mut device, events);
    device
}

/// The same over every run, for short reserves. With a line pulled low the two cases of the claim are not
/// all: m has a reserve or its timer on, is granted, and p is never in.
#[test]
fn crash_exact_over_every_run() {
    let mut points = 0;
    for (kind, m) in BOTH_KINDS.into_iter().flat_map(|kind| [(kind, 0), (kind, 1)]) {
        let p = usize::from(1 - m);
        let asks = |rt: u8, contr: u8| vec![write(m, rt), command(m, 1), write(m, contr)];
        let pulls = |status: u8| vec![stop(m), command(m, 2), write(m, status), stop(m)];
        for (mut events, end, out) in [
            (asks(1, 0x01), vec![], true),
            (asks(1, 0x01), vec![stop(m)], false),
            (asks(3, 0x05), vec![stop(m)], false),
            (asks(0, 0x01), vec![stop(m)], true),
            (asks(0, 0x05), vec![stop(m)], true),
            (asks(0, 0x21), vec![stop(m)], false),
            (asks(0, 0x21), vec![], true),
            (asks(1, 0x01), pulls(0x40), true),
            (asks(2, 0x61), pulls(0x80), true),
            (asks(1, 0x01), pulls(0x00), true),
            (asks(1, 0x01), pulls(0xC0), false),
        ] {
            events.extend(end);
            let device = silent_after(kind, m, &events);
            let (is_in, count) = every_run(&device, p);
            assert_eq!(is_in, !out, "{events:?}");
            assert_eq!(out, !bars(&device, usize::from(m)).is_empty(), "{events:?}");
            points += count;
        }
    }
    println!("{points} points");
}
