//! The marked examples M1 to M11 of document 01.

mod bench;
use bench::*;
use model::{address_of, listing};

#[test]
fn m1_listing() {
    let trace = [
        0x04, 0, 0, 0, 0, 0x04, 0, // straps, count
        0, 0, 1, 0, 1, 0, 5, 0, 3, 0, 0, 0, 2, 0, 0, 0, // events
        1, 0, // kind: "M1's input gains 01 00" (#105)
    ];
    assert_eq!(listing(&trace), "70 0004\n0000000C\n0000200C\n0000250C\n0007250C\n");
    assert_eq!(listing(&[0x05]), "R10\n");
    assert_eq!(listing(&[]), "R5\n");
}

#[test]
fn m2_reserve_on_an_idle_bus() {
    for m in [0, 1] {
        let mut device = owned_by(m, 2, 0x01);
        assert_eq!(owner(ticks(&mut device, 1)), Some(m));
        assert_eq!(owner(ticks(&mut device, 1)), None);
        assert_eq!(get(&mut device, m, 4), 0x06); // granted, lost
        assert_eq!(get(&mut device, m, 1), 0x00); // LOCK_REQ is cleared
    }
}

#[test]
fn m3_reserve_on_a_busy_bus() {
    let mut device = owned_by(0, 2, 0x01);
    ticks(&mut device, 1);
    assert_eq!(owner(run(&mut device, &[lines(1, 0, 1)])), Some(0));
    assert_eq!(owner(ticks(&mut device, 1)), Some(0));
    assert_eq!(owner(ticks(&mut device, 20)), Some(0));
    assert_eq!(owner(run(&mut device, &[lines(1, 1, 1)])), None);
}

#[test]
fn m4_no_reserve_and_idle_timer_off() {
    let mut device = owned_by(0, 0, 0x01);
    for _ in 0..255 {
        assert_eq!(owner(ticks(&mut device, 1)), Some(0));
    }
}

#[test]
fn m5_no_reserve_and_idle_timer_on() {
    let mut device = owned_by(0, 0, 0x21);
    for _ in 0..100 {
        assert_eq!(owner(ticks(&mut device, 1)), Some(0));
    }
    assert_eq!(owner(ticks(&mut device, 1)), None);
    assert_eq!(get(&mut device, 0, 4), 0x06);
}

#[test]
fn m6_pair_of_requests() {
    for (value, winner) in [(0x01, 0), (0x81, 1)] {
        let mut device = Device::power_up();
        run(&mut device, &[command(0, 1), command(1, 1), pair(value, value)]);
        assert_eq!(device.claimant(), Some(winner));
        // The winner is granted at its own STOP, in whichever order they come.
        let loser = 1 - winner as u8;
        assert_eq!(owner(run(&mut device, &[stop(loser)])), None);
        assert_eq!(owner(run(&mut device, &[stop(winner as u8)])), Some(winner as u8));
    }
}

#[test]
fn m7_contr_read_before_the_stop() {
    let mut device = Device::power_up();
    let answer = run(&mut device, &[command(0, 1), write(0, 0xFF), read(0)]);
    assert_eq!(answer[1], 0xFD);
    assert_eq!(owner(run(&mut device, &[stop(0)])), Some(0));
    assert_eq!(run(&mut device, &[read(0)])[1], 0xFF);
}

#[test]
fn m8_command_codes() {
    assert_eq!(Device::power_up().step(command(0, 0x08))[0], 1);
    assert_eq!(Device::power_up().step(command(0, 0x81))[0], 0);
}

#[test]
fn m9_initialisation() {
    let mut device = owned_by(0, 0, 0x0D);
    assert!(initialising(look(&device)));
    assert_eq!(switch(run(&mut device, &[pulse(0); 8])), None);
    let answer = run(&mut device, &[pulse(1)]);
    assert_eq!((switch(answer), initialising(answer)), (Some(0), false));
    assert_eq!(get(&mut device, 0, 1), 0x07); // BUS_INIT is cleared

    let mut device = owned_by(0, 0, 0x0D);
    assert!(initialising(run(&mut device, &[pulse(0); 8])));
    let answer = run(&mut device, &[pulse(0)]);
    assert_eq!((owner(answer), switch(answer), initialising(answer)), (Some(0), None, false));
    assert_eq!(get(&mut device, 0, 1), 0x03); // BUS_INIT and BUS_CONNECT are cleared
    assert_eq!(get(&mut device, 0, 2), 0xCA); // BUS_INIT_FAIL
    assert_eq!(get(&mut device, 1, 2), 0xCB); // shown to both
}

#[test]
fn m10_straps() {
    assert_eq!(address_of([1, 0, 0, 0]), None);
    assert_eq!(address_of([1, 1, 1, 3]), Some(0x0F));
    assert_eq!(listing(&[4, 1, 0, 0, 0, 0, 0, 1, 0]), "R8\n");
    assert_eq!(listing(&[4, 1, 1, 1, 3, 0, 0, 1, 0]), "0F 0000\n");
}

#[test]
fn m11_cut_at_35_ticks() {
    let mut device = owned_by(0, 0, 0x45);
    run(&mut device, &[lines(0, 1, 1)]);
    assert_eq!(switch(ticks(&mut device, 34)), Some(0));
    let answer = ticks(&mut device, 1);
    assert_eq!((owner(answer), switch(answer)), (Some(0), None));

    // Without SMBUS_DIS there is no cut.
    let mut device = owned_by(0, 0, 0x05);
    run(&mut device, &[lines(0, 1, 1)]);
    assert_eq!(switch(ticks(&mut device, 40)), Some(0));
}
