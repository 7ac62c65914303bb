//! A controller, m, that sends nothing from some point on: when its partner, p, gets the bus by ticks
//! alone, and when it never does. Tried on random states of both kinds of part, with resets, holds, drives
//! and busy buses.

use std::collections::HashSet;

mod bench;
use bench::stalled::*;
use bench::*;
use model::crashes::{crashed, limit, silence_phrase};
use model::device::{BOTH_HIGH, LOCK_REQ};
use model::image::image_of;
use model::rng::Rng;

/// How p comes to the bus by ticks alone.
#[derive(Clone, Copy, Debug, PartialEq)]
enum Way {
    Own,
    Claim,
    BehindOwner,
    BehindClaimant,
}

const WAYS: [Way; 4] = [Way::Own, Way::Claim, Way::BehindOwner, Way::BehindClaimant];

/// The claim's first form: "p owns or claims already, or m owns on an idle bus with a reserve or its timer
/// on, or m claims at rest under a hold with the outside lines high, the bus not busy, and a reserve or the
/// timer on".
fn way(device: &Device, m: usize) -> Option<Way> {
    if owns(device, 1 - m) {
        Some(Way::Own)
    } else if claims(device, 1 - m) {
        Some(Way::Claim)
    } else if owns(device, m) && device.is_idle() && can_end(device, m) {
        Some(Way::BehindOwner)
    } else {
        let waits = claims(device, m) && at_rest(device, m) && device.hold > 0;
        let falls_idle = device.outside == BOTH_HIGH && !device.busy;
        (waits && falls_idle && can_end(device, m)).then_some(Way::BehindClaimant)
    }
}

/// The very tick.
fn tick_of(device: &Device, m: usize, way: Way) -> usize {
    match way {
        Way::Own => 0,
        Way::Claim => device.hold as usize,
        Way::BehindOwner if device.masters[m].rt != 0 => device.reserve_count as usize,
        Way::BehindOwner => limit(device.kind) - device.idle_count as usize,
        Way::BehindClaimant => figure(device, m),
    }
}

/// Random states at which p asks and is at rest.
fn each_standing(seeds: std::ops::Range<u64>, mut check: impl FnMut(&Device, usize)) {
    for seed in seeds {
        let rng = &mut Rng::new(seed);
        let mut device = crashed(rng);
        let p = rng.below(2) as usize;
        if !device.masters[p].has(LOCK_REQ) {
            let name = p as u8;
            run(&mut device, &[command(name, 1), write(name, 0x21), stop(name)]);
        } else if !at_rest(&device, p) {
            run(&mut device, &[stop(p as u8)]);
        }
        // The STOP may have lost p its own grant.
        if device.masters[p].has(LOCK_REQ) {
            check(&device, 1 - p);
        }
    }
}

/// "If only ticks come, p gets the bus exactly if [...]; then by the tick hold + reserve (or + the part's
/// limit where RT is 0), and otherwise never", which is tried for so many ticks. Gives the way, and
/// whether it took up to the figure.
fn assert_exact(device: &Device, m: usize, most: usize) -> Option<(Way, bool)> {
    // So it is in every run; the claim's "bus not busy" is there for any other state.
    assert!(device.hold == 0 || (device.owner().is_none() && !device.busy));
    let count = turn(device, 1 - m, most);
    let way = way(device, m);
    assert_eq!(count, way.map(|way| tick_of(device, m, way)), "m {m}, {way:?}: {device:?}");
    let (way, count) = (way?, count?);
    assert!(count <= figure(device, m), "m {m}, {way:?}: {device:?}");
    Some((way, count == figure(device, m)))
}

#[derive(Default, Debug)]
struct Tally {
    found: [u32; 4],
    at_the_figure: [u32; 4],
    never: u32,
}

impl Tally {
    fn see(&mut self, exact: Option<(Way, bool)>) {
        let Some((way, at_the_figure)) = exact else {
            self.never += 1;
            return;
        };
        let place = WAYS.iter().position(|one| *one == way).unwrap();
        self.found[place] += 1;
        self.at_the_figure[place] += u32::from(at_the_figure);
    }

    fn assert_above(&self, count: u32) {
        println!("{WAYS:?}: {self:?}");
        assert!(self.found.iter().all(|&found| found > count) && self.never > count);
        assert!(self.at_the_figure[2..].iter().all(|&found| found > count));
    }
}

#[test]
fn crash_exact_by_ticks() {
    let mut tally = Tally::default();
    each_standing(0..24_000, |device, m| tally.see(assert_exact(device, m, 700)));
    tally.assert_above(200);
}

/// The same at every point of every run with short reserves, out of requests, withdrawals, reserves of 0
/// to 2, STOPs, soft resets with and without a hold, line changes and ticks. No timer is on, so that one
/// kind of part stands for both.
#[test]
fn crash_exact_over_every_run() {
    let mut events = vec![tick(), lines(1, 0, 1), lines(0, 1, 1), lines(1, 1, 1)];
    for m in [0, 1] {
        events.extend([command(m, 1), stop(m), general_call(m, 6), command(m, 3)]);
        events.extend([0x00, 0x01, 0x11].map(|value| write(m, value)));
    }
    let mut tally = Tally::default();
    let mut seen = HashSet::new();
    let mut left = vec![started(Kind::Pca9641, 0, &starts_of([2, 1], [0, 1], [0, 0]))];
    while let Some(device) = left.pop() {
        for &event in &events {
            let is_long = event[0] == 1 && event[2] > 1;
            if is_long && device.masters[usize::from(event[1])].pointer == 3 {
                continue;
            }
            let mut next = device.clone();
            next.step(event);
            (next.idle_count, next.scl_low_count, next.sda_low_count) = (0, 0, 0);
            next.masters.iter_mut().for_each(|own| own.int_status = 0);
            if seen.insert(image_of(&next)) {
                let stands = |p: &usize| next.masters[*p].has(LOCK_REQ) && at_rest(&next, *p);
                let each = [0, 1].into_iter().filter(stands);
                each.for_each(|p| tally.see(assert_exact(&next, 1 - p, 150)));
                left.push(next);
            }
        }
    }
    println!("{} points", seen.len());
    tally.assert_above(100);
}

/// "A stalled controller can keep the bus for ever only if it has RT 00h with its timer off, stalls inside
/// a transfer to the arbiter, or the bus does not fall idle": where none of these is so the controller has
/// the bus no more once the bus was idle for the part's limit, or at all after the reserve.
#[test]
fn a_stalled_controller() {
    let (mut kept, mut ended) = (0, 0);
    for seed in 0..12_000 {
        let rng = &mut Rng::new(seed);
        let mut device = crashed(rng);
        let m = rng.below(2) as usize;
        let stalls_inside = claims(&device, m) && !at_rest(&device, m);
        if !can_end(&device, m) || stalls_inside || device.claimant() != Some(m) {
            continue;
        }
        let mut to_go = figure(&device, m);
        for _ in 0..rng.between(2, 30) {
            for event in silence_phrase(rng, &device, 1 - m as u8) {
                let has_reserve = device.masters[m].rt != 0;
                let counts = has_reserve || device.is_idle() || device.hold > 0;
                device.step(event);
                if event == tick() && counts && to_go > 0 {
                    to_go -= 1;
                }
                if !has_reserve && !device.is_idle() && device.hold == 0 {
                    to_go = limit(device.kind);
                }
                let fell_idle = to_go == 0 && device.is_idle();
                assert!(!fell_idle || device.claimant() != Some(m), "m {m}: {device:?}");
                kept += u32::from(device.claimant() == Some(m));
                ended += u32::from(fell_idle);
            }
        }
    }
    println!("kept {kept}, ended {ended}");
    assert!(kept > 1000 && ended > 1000);
}
