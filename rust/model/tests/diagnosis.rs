//! What a waiting controller, p, reads of what it waits for.

use std::collections::HashSet;

mod bench;
use bench::*;
use model::crashes::crashed;
use model::device::{Port, LOCK_REQ};
use model::image::image_of;
use model::nights::Night;
use model::part::BOTH_KINDS;
use model::rng::Rng;

/// "p asks, is at rest, does not own, no hold runs".
fn waits(device: &Device, p: usize) -> bool {
    let own = &device.masters[p];
    let asks = own.has(LOCK_REQ) && own.port == Port::AtRest;
    asks && device.owner() != Some(p) && device.hold == 0
}

/// "Then m owns, or claims with its port open, and STATUS bit 0 tells which." The bit is read by p's own
/// COMMAND 02h, READ and STOP, which change neither. Gives the bit.
fn assert_told(device: &Device, p: usize) -> bool {
    let m = 1 - p;
    let owns = device.owner() == Some(m);
    let is_open = device.masters[m].port != Port::AtRest;
    let claims = device.claimant() == Some(m) && device.owner().is_none();
    assert!(owns || (claims && is_open), "{p} waits: {device:?}");
    let mut later = device.clone();
    let told = get(&mut later, p as u8, 2) & 1 == 1;
    assert_eq!(told, owns, "{p} reads: {device:?}");
    assert_eq!(later.owner() == Some(m), owns);
    told
}

/// The states after every event of random runs with resets, holds, mail and drives, for each p.
fn each_state(mut check: impl FnMut(&Device, usize)) {
    for seed in 0..5_000 {
        let mut device = crashed(&mut Rng::new(seed));
        let mut night = Night::new(seed, true, Some(0..=255));
        for _ in 0..100 {
            let event = night.next_event(&device);
            device.step(event);
            [0, 1].into_iter().for_each(|p| check(&device, p));
        }
    }
}

#[test]
fn diagnosis() {
    let mut seen = [0, 0];
    each_state(|device, p| {
        if waits(device, p) {
            seen[usize::from(assert_told(device, p))] += 1;
        }
    });
    println!("m claims with its port open, m owns: {seen:?}");
    assert!(seen[1] > 5_000 && seen[0] > 1_000);
}

/// What p cannot read is the hold, so this is what its STATUS tells where one may run. Bit 0 set: m owns
/// and no hold runs. Bit 0 clear and SCL high: m claims with its port open, and no tick helps. Both clear: a
/// hold of at most 35 ticks, or that claim while SCL is low outside.
#[test]
fn what_the_waiting_one_reads() {
    let (mut owned, mut open, mut held, mut low) = (0, 0, 0, 0);
    each_state(|device, p| {
        if !waits(&Device { hold: 0, ..device.clone() }, p) {
            return;
        }
        let (m, no_hold) = (1 - p, device.hold == 0);
        let stalled = device.claimant() == Some(m) && device.masters[m].port != Port::AtRest;
        let status = get(&mut device.clone(), p as u8, 2);
        let told = match (status & 0x01 != 0, status & 0x40 != 0) {
            (true, _) => {
                owned += 1;
                device.owner() == Some(m) && no_hold
            }
            (false, true) => {
                open += 1;
                stalled && device.owner().is_none() && no_hold
            }
            (false, false) => {
                held += u32::from(!no_hold);
                low += u32::from(no_hold);
                (1..=35).contains(&device.hold) || (stalled && !device.outside.scl)
            }
        };
        assert!(told, "{p} reads {status:02X}: {device:?}");
    });
    println!("m owns {owned}, claims with its port open {open}, hold {held}, claims and low {low}");
    assert!(owned > 5_000 && open > 1_000 && held > 1_000 && low > 100);
}

/// The same over every run out of requests, withdrawals, reads, STOPs, resets, a START, a STOP and ticks.
#[test]
fn diagnosis_over_every_run() {
    let mut events = vec![tick(), lines(1, 0, 1), lines(1, 1, 1), reset(), pair(0, 1), pair(1, 0)];
    events.extend([pair(1, 1), pair(0x11, 0x81)]);
    for m in [0, 1] {
        events.extend([command(m, 1), write(m, 0), write(m, 1), read(m), stop(m)]);
        events.push(general_call(m, 6));
    }
    for kind in BOTH_KINDS {
        let (mut seen, mut waited) = (HashSet::new(), [0, 0]);
        let starts = starts_of([2, 0], [0, 1], [0, 1]);
        let mut left = vec![started(kind, 0, &starts)];
        while let Some(device) = left.pop() {
            for &event in &events {
                let mut next = device.clone();
                next.step(event);
                // A hold is counted from three, so that the runs are few; these others are not read here.
                next.hold = next.hold.min(3);
                (next.idle_count, next.scl_low_count, next.sda_low_count) = (0, 0, 0);
                next.masters.iter_mut().for_each(|own| own.int_status = 0);
                for p in [0, 1] {
                    if waits(&next, p) {
                        waited[usize::from(assert_told(&next, p))] += 1;
                    }
                }
                if seen.insert(image_of(&next)) {
                    left.push(next);
                }
            }
        }
        println!("{} points, {waited:?}", seen.len());
        assert!(waited.iter().all(|&count| count > 100));
    }
}
