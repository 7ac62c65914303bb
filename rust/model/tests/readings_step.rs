//! readings.md, points 1 to 11: the step.

mod bench;
use bench::*;

/// Point 1. Part 2 sees the released lines, so the withdrawal is a STOP.
#[test]
fn withdrawal_acts_in_part_1() {
    let mut device = owned_by(0, 0, 0x01);
    let answer = set(&mut device, 0, 2, 0x40); // SDA low: START
    assert_eq!(scl_sda(answer), (1, 0));
    assert!(device.busy);
    let answer = run(&mut device, &[command(0, 1), write(0, 0x04)]);
    assert_eq!((owner(answer), scl_sda(answer)), (None, (1, 1)));
    assert!(!device.busy);
    // BUS_CONNECT of the very byte ends 0, and no loss is noted.
    assert_eq!(get(&mut device, 0, 1), 0x00);
    assert_eq!(get(&mut device, 0, 4), 0x04);
}

/// Point 2. Only the end of a grant clears BUS_CONNECT.
#[test]
fn withdrawn_claim_keeps_bus_connect() {
    let mut device = Device::power_up();
    run(&mut device, &[command(0, 1), write(0, 0x05), write(0, 0x04), stop(0)]);
    assert_eq!(get(&mut device, 0, 1), 0x04);
    assert_eq!(device.claimant(), None);
}

/// Point 3. The idle timer is switched on when the count already stands at 101.
#[test]
fn loss_in_a_write() {
    let mut device = owned_by(0, 0, 0x05);
    assert_eq!(owner(ticks(&mut device, 150)), Some(0));
    let answer = run(&mut device, &[command(0, 1), write(0, 0x25)]);
    assert_eq!((owner(answer), switch(answer)), (None, None));
    assert_eq!(run(&mut device, &[read(0)])[1], 0x20); // LOCK_REQ and BUS_CONNECT are cleared
    assert_eq!(get(&mut device, 0, 4), 0x06);
}

/// Point 3 again: at 100 idle ticks the same byte loses nothing yet.
#[test]
fn no_loss_in_a_write_at_100() {
    let mut device = owned_by(0, 0, 0x05);
    ticks(&mut device, 100);
    assert_eq!(owner(run(&mut device, &[command(0, 1), write(0, 0x25)])), Some(0));
    assert_eq!(owner(ticks(&mut device, 1)), None);
}

/// "Not idle zeroes the idle count": busy, SCL low or SDA low alone.
#[test]
fn idle_count_starts_again() {
    let pauses = [
        vec![lines(0, 1, 1), lines(1, 1, 1)], // SCL low
        vec![lines(0, 1, 1), lines(0, 0, 1), lines(0, 1, 1), lines(1, 1, 1)], // SDA low
        vec![lines(1, 0, 1), lines(1, 1, 1)], // START and STOP
    ];
    for pause in pauses {
        let mut device = owned_by(0, 0, 0x21);
        ticks(&mut device, 100);
        run(&mut device, &pause);
        assert_eq!(owner(ticks(&mut device, 100)), Some(0));
        assert_eq!(owner(ticks(&mut device, 1)), None);
    }
    // The count is 0 at the grant, however long the bus was idle before.
    let mut device = Device::power_up();
    ticks(&mut device, 300);
    assert_eq!(owner(set(&mut device, 0, 1, 0x21)), Some(0));
    assert_eq!(owner(ticks(&mut device, 100)), Some(0));
    assert_eq!(owner(ticks(&mut device, 1)), None);
    // A bus that stays busy is not idle, though both lines are high.
    let mut device = owned_by(0, 0, 0x21);
    run(&mut device, &[lines(1, 0, 1), lines(0, 0, 1), lines(1, 1, 1)]);
    assert_eq!(owner(ticks(&mut device, 300)), Some(0));
}

/// Point 4. A later connection on the same low line is not cut.
#[test]
fn cut_acts_once() {
    let mut device = owned_by(0, 0, 0x45);
    run(&mut device, &[lines(0, 1, 1)]);
    assert_eq!(switch(ticks(&mut device, 35)), None);
    assert_eq!(switch(set(&mut device, 0, 1, 0x45)), Some(0));
    assert_eq!(switch(ticks(&mut device, 600)), Some(0));
}

/// Point 4. The count runs from the fall, whoever was connected then.
#[test]
fn cut_meets_whoever_is_granted() {
    let mut device = owned_by(0, 0, 0x05);
    set(&mut device, 1, 1, 0x45);
    run(&mut device, &[lines(0, 1, 1)]);
    ticks(&mut device, 30);
    assert_eq!(switch(set(&mut device, 0, 1, 0x00)), Some(1));
    assert_eq!(switch(ticks(&mut device, 4)), Some(1));
    let answer = ticks(&mut device, 1);
    assert_eq!((owner(answer), switch(answer)), (Some(1), None));
}

/// Point 4. The tick that makes 35 also ends the hold: the grant it makes comes
/// after part 4, so that connection is not cut.
#[test]
fn no_cut_of_a_grant_made_in_that_tick() {
    let mut device = Device::power_up();
    set(&mut device, 0, 1, 0x10);
    run(&mut device, &[lines(0, 1, 1), general_call(0, 6)]);
    set(&mut device, 1, 1, 0x45);
    assert_eq!(owner(ticks(&mut device, 34)), None);
    let answer = ticks(&mut device, 1);
    assert_eq!((device.scl_low_count, owner(answer), switch(answer)), (35, Some(1), Some(1)));
    assert_eq!(switch(ticks(&mut device, 100)), Some(1));
}

/// Point 5. The hold lasts 35 ticks, and the grant comes in the tick that ends it.
#[test]
fn hold_and_grant() {
    let mut device = Device::power_up();
    set(&mut device, 1, 1, 0x10);
    let answer = run(&mut device, &[general_call(1, 6)]);
    assert_eq!(scl_sda(answer), (0, 1));
    assert_eq!(owner(set(&mut device, 0, 1, 0x25)), None);
    let answer = ticks(&mut device, 34);
    assert_eq!((scl_sda(answer), owner(answer)), ((0, 1), None));
    let answer = ticks(&mut device, 1);
    assert_eq!((scl_sda(answer), owner(answer)), ((1, 1), Some(0)));
    // That tick was not an idle one: 101 more are needed.
    assert_eq!(owner(ticks(&mut device, 100)), Some(0));
    assert_eq!(owner(ticks(&mut device, 1)), None);
}

/// The hold is SCL low like any other: 500 ticks from its start make a hung bus.
#[test]
fn hold_counts_as_scl_low() {
    let mut device = Device::power_up();
    set(&mut device, 0, 1, 0x10);
    run(&mut device, &[general_call(0, 6), lines(0, 1, 1)]);
    ticks(&mut device, 499);
    assert_eq!(get(&mut device, 0, 2) & 0x04, 0);
    ticks(&mut device, 1);
    assert_eq!(get(&mut device, 0, 2) & 0x04, 0x04);
}

/// "Every other reset ends a running hold." Only the sender's bit matters.
#[test]
fn other_resets_end_a_hold() {
    for other in [reset(), general_call(0, 6), general_call(1, 6)] {
        let mut device = Device::power_up();
        set(&mut device, 0, 1, 0x10);
        run(&mut device, &[general_call(0, 6), tick()]);
        assert_eq!(scl_sda(run(&mut device, &[other])), (1, 1));
    }
    let mut device = Device::power_up();
    set(&mut device, 0, 1, 0x10);
    assert_eq!(scl_sda(run(&mut device, &[general_call(1, 6)])), (1, 1));
}

/// Point 6. A busy bus does not hold back a grant.
#[test]
fn grant_on_a_busy_bus() {
    let mut device = Device::power_up();
    run(&mut device, &[lines(1, 0, 1)]);
    assert!(device.busy);
    assert_eq!(owner(set(&mut device, 0, 1, 0x01)), Some(0));
}

/// Point 7. A drive that covers an outside fall hides the START.
#[test]
fn start_is_read_on_combined_levels() {
    let mut device = owned_by(0, 0, 0x01);
    set(&mut device, 0, 2, 0x80); // SCL low
    run(&mut device, &[lines(1, 0, 1)]);
    assert!(!device.busy);
    // SCL released with SDA low outside: no START either.
    set(&mut device, 0, 2, 0xC0);
    assert!(!device.busy);
    // Both lines rise or fall in one event: neither START nor STOP.
    run(&mut device, &[lines(1, 1, 1), lines(0, 0, 1), lines(1, 1, 1)]);
    assert!(!device.busy);
    run(&mut device, &[lines(1, 0, 1), lines(0, 0, 1), lines(1, 1, 1)]);
    assert!(device.busy);
}

/// Point 9. The bus passes from a connected master to one that waits with
/// BUS_CONNECT and BUS_INIT set.
#[test]
fn initialisation_as_the_bus_passes_on() {
    let mut device = owned_by(0, 0, 0x05);
    set(&mut device, 1, 1, 0x0D);
    let answer = set(&mut device, 0, 1, 0x00);
    assert_eq!((owner(answer), switch(answer), initialising(answer)), (Some(1), None, true));
    // BUS_INIT set by an owner who is already connected starts nothing.
    let mut device = owned_by(0, 0, 0x05);
    let answer = set(&mut device, 0, 1, 0x0D);
    assert_eq!((switch(answer), initialising(answer)), (Some(0), false));
}

/// Point 10. Pulses are counted per initialisation, and FAIL waits for a start.
#[test]
fn pulses_are_counted_from_zero() {
    let mut device = owned_by(0, 0, 0x0D);
    run(&mut device, &[pulse(0); 5]);
    // Abandoned by BUS_CONNECT 0; BUS_INIT stays as written.
    assert!(!initialising(set(&mut device, 0, 1, 0x09)));
    assert_eq!(get(&mut device, 0, 1), 0x0B);
    assert!(initialising(set(&mut device, 0, 1, 0x0D)));
    assert!(initialising(run(&mut device, &[pulse(0); 8])));
    assert!(!initialising(run(&mut device, &[pulse(0)])));
    assert_eq!(get(&mut device, 0, 2) & 0x02, 0x02);
    // Connecting without BUS_INIT leaves FAIL; a new start clears it.
    set(&mut device, 0, 1, 0x05);
    assert_eq!(get(&mut device, 0, 2) & 0x02, 0x02);
    set(&mut device, 0, 1, 0x09);
    assert_eq!(get(&mut device, 0, 2) & 0x02, 0x02);
    set(&mut device, 0, 1, 0x0D);
    assert_eq!(get(&mut device, 0, 2) & 0x02, 0x00);
}

/// Point 11. BUS_INIT_FAIL and BUS_HUNG go back in a reset, though SDA stays low.
#[test]
fn reset_clears_the_flags() {
    let mut device = owned_by(0, 0, 0x0D);
    run(&mut device, &[pulse(0); 9]);
    run(&mut device, &[lines(1, 0, 1)]);
    ticks(&mut device, 501);
    assert_eq!(get(&mut device, 1, 2), 0x4F);
    run(&mut device, &[reset()]);
    assert_eq!(get(&mut device, 1, 2), 0x48);
    ticks(&mut device, 500);
    assert_eq!(get(&mut device, 1, 2), 0x48);
    ticks(&mut device, 1);
    assert_eq!(get(&mut device, 1, 2), 0x4C);
}

/// Point 10. "A write of BUS_INIT meanwhile changes only that bit."
#[test]
fn bus_init_written_meanwhile() {
    let mut device = owned_by(0, 0, 0x0D);
    let answer = set(&mut device, 0, 1, 0x05);
    assert_eq!((initialising(answer), switch(answer)), (true, None));
    assert_eq!(get(&mut device, 0, 1), 0x07);
    assert_eq!(switch(run(&mut device, &[pulse(1)])), Some(0));
}

/// A cut abandons an initialisation and leaves BUS_INIT.
#[test]
fn cut_abandons_an_initialisation() {
    let mut device = owned_by(0, 0, 0x4D);
    run(&mut device, &[lines(0, 1, 1)]);
    assert!(initialising(ticks(&mut device, 34)));
    assert!(!initialising(ticks(&mut device, 1)));
    assert_eq!(get(&mut device, 0, 1), 0x4B);
}

/// Point 11. A reset forgets the last granted master and everything else.
#[test]
fn reset_restores_everything_but_the_outside() {
    for event in [reset(), general_call(0, 6), general_call(1, 6)] {
        let mut device = owned_by(0, 5, 0x0D);
        set(&mut device, 1, 0x86, 0x77);
        set(&mut device, 1, 5, 0x00);
        run(&mut device, &[lines(1, 0, 0), tick(), command(1, 0x84), event]);
        let mut fresh = Device::power_up();
        fresh.outside.sda = false;
        fresh.int_in = false;
        assert_eq!(device, fresh);
        // INT_IN low across a reset is no fall; the next fall is one.
        run(&mut device, &[lines(1, 0, 0)]);
        assert_eq!(get(&mut device, 0, 4), 0x00);
        run(&mut device, &[lines(1, 0, 1), lines(1, 0, 0)]);
        assert_eq!((get(&mut device, 0, 4), get(&mut device, 1, 4)), (0x01, 0x01));
    }
}
