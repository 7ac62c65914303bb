//! The ground of a claim, in bits 5 and 6 of the third answer byte (#107).

mod bench;
use bench::*;
use model::device::{LOCK_REQ, PRIORITY};
use model::part::BOTH_KINDS;
use model::traces::event_list_of;

/// A device on which this master was granted last and nobody asks now.
fn after(last: Option<u8>) -> Device {
    let Some(m) = last else {
        return Device::power_up();
    };
    let mut device = owned_by(m, 0, 0x01);
    assert_eq!(ground(set(&mut device, m, 1, 0x00)), 0);
    device
}

/// Both ask in one PAIR. Gives its answer.
fn both_ask(device: &mut Device, v0: u8, v1: u8) -> [u8; 4] {
    run(device, &[command(0, 1), command(1, 1), pair(v0, v1)])
}

/// All twelve places of the winner table. Priorities that differ are the ground also where last
/// granted would choose the same.
#[test]
fn winner_table() {
    let rows = [(0x01, 0x01, 3), (0x01, 0x81, 2), (0x81, 0x01, 2), (0x81, 0x81, 3)];
    for (v0, v1, number) in rows {
        for last in [None, Some(0), Some(1)] {
            let mut device = after(last);
            let answer = both_ask(&mut device, v0, v1);
            assert_eq!((owner(answer), ground(answer)), (None, number), "{v0:02X} {v1:02X}");
            // It is kept through the grant.
            let answer = run(&mut device, &[stop(0), stop(1)]);
            assert!(owner(answer).is_some());
            assert_eq!(ground(answer), number);
        }
    }
}

/// 1 from the byte that asks, before the grant at the STOP; no priority makes it another.
#[test]
fn sole_requester() {
    for m in [0, 1] {
        for value in [0x01, 0x81] {
            let mut device = after(Some(m));
            let answer = run(&mut device, &[command(m, 1), write(m, value)]);
            assert_eq!((owner(answer), ground(answer)), (None, 1));
            let answer = run(&mut device, &[stop(m)]);
            assert_eq!((owner(answer), ground(answer)), (Some(m), 1));
        }
    }
    // A PAIR in which one alone asks.
    let mut device = Device::power_up();
    assert_eq!(ground(both_ask(&mut device, 0x80, 0x01)), 1);
}

/// Fixed at the moment of choice: no later request, priority or byte moves it, before the grant or
/// after.
#[test]
fn kept() {
    for at_once in [true, false] {
        for (v0, v1, number) in [(0x01, 0x00, 1), (0x81, 0x01, 2), (0x01, 0x01, 3)] {
            let mut device = Device::power_up();
            assert_eq!(ground(both_ask(&mut device, v0, v1)), number);
            if at_once {
                run(&mut device, &[stop(0), stop(1), command(0, 1), command(1, 1)]);
            }
            // The partner asks with priority, asks no more, asks again; the claimant writes both.
            let bytes = [write(1, 0x81), write(1, 0x00), write(1, 0x01), write(0, 0x81)];
            for byte in [&bytes[..], &[write(0, 0x05), pair(0x81, 0x01), pair(0x01, 0x81)]].concat()
            {
                let answer = run(&mut device, &[byte]);
                let expected = (if at_once { Some(0) } else { None }, number);
                assert_eq!((owner(answer), ground(answer)), expected, "{byte:?}");
            }
        }
    }
}

/// "0 with no claimant": in the byte that withdraws, before the grant or after, and at the loss.
#[test]
fn none_without_a_claimant() {
    let mut device = Device::power_up();
    assert_eq!(ground(look(&device)), 0);
    run(&mut device, &[command(0, 1), write(0, 0x01)]);
    assert_eq!(ground(run(&mut device, &[write(0, 0x00)])), 0);
    let mut device = owned_by(0, 0, 0x01);
    assert_eq!(ground(run(&mut device, &[command(0, 1), write(0, 0x00)])), 0);
    let mut device = owned_by(1, 2, 0x01);
    assert_eq!(ground(ticks(&mut device, 1)), 1);
    assert_eq!(ground(ticks(&mut device, 1)), 0);
    for event in [reset(), general_call(0, 6)] {
        let mut device = owned_by(1, 0, 0x01);
        assert_eq!(ground(run(&mut device, &[event])), 0);
    }
}

/// A partner that follows is the one requester, whatever the ground was before it.
#[test]
fn the_partner_follows() {
    for values in [(0x01, 0x01), (0x81, 0x01)] {
        // Withdrawn before the grant.
        let mut device = Device::power_up();
        both_ask(&mut device, values.0, values.1);
        assert_eq!(ground(run(&mut device, &[write(0, 0x80)])), 1);
        assert_eq!(device.claimant(), Some(1));
        // Withdrawn after it.
        let mut device = Device::power_up();
        both_ask(&mut device, values.0, values.1);
        run(&mut device, &[stop(0), stop(1)]);
        let answer = run(&mut device, &[command(0, 1), write(0, 0x80)]);
        assert_eq!((owner(answer), ground(answer)), (Some(1), 1));
        // Lost.
        let mut device = Device::power_up();
        set(&mut device, 0, 3, 1);
        both_ask(&mut device, values.0, values.1);
        run(&mut device, &[stop(0), stop(1)]);
        let answer = ticks(&mut device, 1);
        assert_eq!((owner(answer), ground(answer)), (Some(1), 1));
    }
    // Withdrawn and asked for in one PAIR.
    let mut device = owned_by(0, 0, 0x01);
    assert_eq!(ground(both_ask(&mut device, 0x80, 0x81)), 1);
    assert_eq!(device.claimant(), Some(1));
}

/// Under a hold there is a claim and no grant. A reset takes last granted back, so it is 3 with
/// nobody granted before.
#[test]
fn under_a_hold() {
    let mut device = owned_by(0, 0, 0x11);
    assert_eq!(ground(run(&mut device, &[general_call(0, 6)])), 0);
    assert_eq!(ground(both_ask(&mut device, 0x81, 0x81)), 3);
    let answer = run(&mut device, &[stop(0), stop(1)]);
    assert_eq!((owner(answer), ground(answer)), (None, 3));
    let answer = ticks(&mut device, 34);
    assert_eq!((owner(answer), ground(answer)), (None, 3));
    let answer = ticks(&mut device, 1);
    assert_eq!((owner(answer), ground(answer)), (Some(1), 3));
}

/// Refused answers and those not acknowledged show it too, and the cut at 35 ticks keeps it.
#[test]
fn shown_in_every_answer() {
    let mut device = owned_by(0, 0, 0x45);
    for event in [[255, 0, 0, 0], [6, 1, 0, 0], write(1, 0), command(0, 0x78), general_call(1, 0)] {
        let answer = device.step(event);
        assert_ne!(answer[0], 0);
        assert_eq!(answer[2], 0x25, "{event:?}");
    }
    run(&mut device, &[stop(0), lines(0, 1, 1)]);
    assert_eq!(ticks(&mut device, 34)[2], 0x25);
    assert_eq!(ticks(&mut device, 1)[2], 0x21);
}

/// Over many runs: a ground exactly with a claimant, the same as long as the claimant is the same,
/// and a new one by who asks after the step. Bit 7 stays 0.
#[test]
fn over_random_runs() {
    let mut seen = [0; 4];
    for seed in 0..600 {
        let kind = BOTH_KINDS[seed as usize % 2];
        let mut device = Device::power_up_of(kind);
        for event in event_list_of(kind, seed, 300) {
            let before = device.clone();
            let answer = device.step(event);
            assert!(answer[2] < 0x80);
            let asks = [0, 1].map(|m: usize| device.masters[m].has(LOCK_REQ));
            let priority = [0, 1].map(|m: usize| device.masters[m].has(PRIORITY));
            let expected = match device.claimant() {
                None => 0,
                now if now == before.claimant() => ground(look(&before)),
                Some(_) if asks != [true, true] => 1,
                Some(_) if priority[0] != priority[1] => 2,
                Some(_) => 3,
            };
            assert_eq!(ground(answer), expected);
            assert_eq!(expected == 0, asks == [false, false]);
            seen[usize::from(expected)] += u64::from(before.claim.is_none());
            // Grounds 2 and 3 arise from a PAIR alone.
            let arose = before.claim != device.claim && expected >= 2;
            assert!(!arose || event[0] == 4);
        }
    }
    assert!(seen.iter().all(|count| *count > 50), "{seen:?}");
}
