//! "Readings we have already paid for", document 01. Each must not come back.

mod bench;
use bench::*;

/// RT 00h as "already run out".
#[test]
fn rt_zero_has_not_run_out() {
    let mut device = owned_by(0, 0, 0x05);
    set(&mut device, 1, 1, 0x05); // the partner waits
    for _ in 0..1000 {
        assert_eq!(owner(ticks(&mut device, 1)), Some(0));
    }
    // A START and a STOP do not end it either.
    assert_eq!(owner(run(&mut device, &[lines(1, 0, 1), lines(1, 1, 1)])), Some(0));
}

/// A grant given with the LOCK_REQ byte and not at the STOP.
#[test]
fn grant_is_made_at_the_stop() {
    let mut device = Device::power_up();
    assert_eq!(owner(run(&mut device, &[command(0, 1), write(0, 0x05)])), None);
    assert_eq!(device.claimant(), Some(0));
    assert_eq!(owner(ticks(&mut device, 3)), None);
    assert_eq!(owner(run(&mut device, &[stop(0)])), Some(0));
    // The reserve is counted from the grant, not from the byte.
    let mut device = Device::power_up();
    set(&mut device, 0, 3, 2);
    run(&mut device, &[command(0, 1), write(0, 0x01), tick(), tick(), tick(), stop(0)]);
    assert_eq!(owner(ticks(&mut device, 1)), Some(0));
    assert_eq!(owner(ticks(&mut device, 1)), None);
}

/// An idle timer that cuts an unexpired reserve.
#[test]
fn idle_timer_leaves_a_reserve_alone() {
    let mut device = owned_by(0, 150, 0x21);
    for _ in 0..149 {
        assert_eq!(owner(ticks(&mut device, 1)), Some(0));
    }
    assert_eq!(owner(ticks(&mut device, 1)), None);
}

/// A released owner that claims again before its waiting partner.
#[test]
fn waiting_partner_is_next() {
    // By withdrawal, with a new request in the very next byte.
    let mut device = owned_by(0, 0, 0x05);
    set(&mut device, 1, 1, 0x05);
    let answer = run(&mut device, &[command(0, 1), write(0, 0x00)]);
    assert_eq!((owner(answer), switch(answer)), (Some(1), Some(1)));
    assert_eq!(owner(run(&mut device, &[write(0, 0x81), stop(0)])), Some(1));

    // By a loss, and the partner's port is still open: it is granted at its STOP.
    let mut device = owned_by(0, 1, 0x01);
    run(&mut device, &[command(1, 1), write(1, 0x01)]);
    assert_eq!(owner(ticks(&mut device, 1)), None);
    assert_eq!(device.claimant(), Some(1));
    assert_eq!(owner(set(&mut device, 0, 1, 0x81)), None);
    assert_eq!(owner(run(&mut device, &[stop(1)])), Some(1));

    // Withdrawn and asked for in one PAIR: the partner has the claim.
    let mut device = owned_by(0, 0, 0x01);
    run(&mut device, &[command(0, 1), command(1, 1), pair(0x00, 0x01), write(0, 0x81)]);
    assert_eq!(owner(run(&mut device, &[stop(0), stop(1)])), Some(1));
}

/// Write pointers that roll from 7 to 0.
#[test]
fn write_pointer_stays_at_seven() {
    let mut device = Device::power_up();
    run(&mut device, &[command(0, 0x87), write(0, 0x11), write(0, 0x22), write(0, 0x33)]);
    assert_eq!(device.masters[0].pointer, 7);
    // The first byte filled the box, so the others were dropped.
    assert_eq!(get(&mut device, 1, 7), 0x11);
    // A read pointer does roll.
    run(&mut device, &[command(0, 0x87), read(0)]);
    assert_eq!(run(&mut device, &[read(0)])[1], 0x38);
    assert_eq!(device.masters[0].pointer, 1);
}
