//! BUS_HUNG as #102 has it: SCL low for 500 ticks, or SDA low for 501 with no change of SCL.

mod bench;
use bench::*;
use model::happenings::Happenings;
use model::traces::{event_list, seed_of};

/// BUS_HUNG as STATUS shows it, seen from outside the counts.
fn hung(device: &Device) -> bool {
    let mut copy = device.clone();
    let flags = [0, 1].map(|m| [get(&mut copy, m, 2) & 0x04, get(&mut copy, m, 4) >> 4 & 0x04]);
    assert!(flags == [[0; 2]; 2] || flags == [[4; 2]; 2], "{flags:?}");
    flags[0][0] == 4
}

/// Hung after so many more ticks, and not one tick sooner.
fn assert_hung_in(device: &mut Device, count: usize) {
    ticks(device, count - 1);
    assert!(!hung(device), "before tick {count}");
    ticks(device, 1);
    assert!(hung(device), "at tick {count}");
}

/// A fresh device on which SDA has been low for so many ticks, and SCL high.
fn sda_low_for(count: usize) -> Device {
    let mut device = Device::power_up();
    run(&mut device, &[lines(1, 0, 1)]);
    ticks(&mut device, count);
    device
}

/// "SCL low for 500 ms", "SDA low [...] for more than 500 ms". Both low is SCL's case.
#[test]
fn five_hundred_and_one_more() {
    for (low, count) in [(lines(0, 1, 1), 500), (lines(1, 0, 1), 501), (lines(0, 0, 1), 500)] {
        let mut device = Device::power_up();
        run(&mut device, &[low]);
        assert_hung_in(&mut device, count);
        ticks(&mut device, 700);
        assert!(hung(&device));
        run(&mut device, &[lines(1, 1, 1)]);
        assert!(!hung(&device));
    }
}

/// The counts stop where they hang the bus.
#[test]
fn counts_stop() {
    let mut device = Device::power_up();
    run(&mut device, &[lines(0, 0, 1)]);
    ticks(&mut device, 2000);
    assert_eq!((device.scl_low_count, device.sda_low_count), (500, 501));
}

/// The monitor of the request: SDA low over long polls, its clock running.
#[test]
fn a_running_clock_is_not_hung() {
    let mut device = sda_low_for(0);
    for _ in 0..20 {
        ticks(&mut device, 250);
        run(&mut device, &[lines(0, 0, 1)]);
        ticks(&mut device, 250);
        run(&mut device, &[lines(1, 0, 1)]);
        assert!(!hung(&device));
    }
    assert_hung_in(&mut device, 501);
}

/// A fall and a rise both restart the count, also between two ticks.
#[test]
fn every_change_of_scl_restarts() {
    let mut device = sda_low_for(500);
    run(&mut device, &[lines(0, 0, 1)]);
    ticks(&mut device, 499);
    run(&mut device, &[lines(1, 0, 1)]);
    assert_hung_in(&mut device, 501);

    let mut device = sda_low_for(500);
    run(&mut device, &[lines(0, 0, 1), lines(1, 0, 1)]);
    assert_hung_in(&mut device, 501);
}

/// LINES that leave SCL alone are no change, and SDA that rises takes the count back.
#[test]
fn other_lines_events() {
    let mut device = sda_low_for(500);
    run(&mut device, &[lines(1, 0, 0), lines(1, 0, 1)]);
    assert_hung_in(&mut device, 1);
    let mut device = sda_low_for(500);
    run(&mut device, &[lines(1, 1, 1), lines(1, 0, 1)]);
    assert_hung_in(&mut device, 501);
}

/// No latch: a change of SCL takes the flag and the interrupt back, with SDA still low.
#[test]
fn a_change_of_scl_ends_it() {
    let mut device = sda_low_for(0);
    set(&mut device, 1, 5, 0x3F);
    assert_eq!(ticks(&mut device, 500)[3] & 3, 0);
    assert_eq!(ticks(&mut device, 1)[3], 0x06);
    assert_eq!(run(&mut device, &[lines(0, 0, 1)])[3], 0x00);
    assert!(!hung(&device));
    // SCL is low from here on: its 500 come before SDA's 501.
    assert_hung_in(&mut device, 500);
}

/// SDA's count restarts while SCL's starts, so a hung bus by SCL ends as SCL rises.
#[test]
fn scl_rises_with_sda_low() {
    let mut device = Device::power_up();
    run(&mut device, &[lines(0, 0, 1)]);
    ticks(&mut device, 600);
    run(&mut device, &[lines(1, 0, 1)]);
    assert!(!hung(&device));
    assert_hung_in(&mut device, 501);
}

/// The level is the combined one: a drive that changes it restarts the count.
#[test]
fn a_drive_restarts() {
    let mut device = owned_by(0, 0, 0x01);
    run(&mut device, &[lines(1, 0, 1)]);
    ticks(&mut device, 500);
    set(&mut device, 0, 2, 0x80); // SCL low
    ticks(&mut device, 400);
    set(&mut device, 0, 2, 0xC0); // SCL high
    assert_hung_in(&mut device, 501);
    // The end of the grant releases the drive, and that is a rise too.
    set(&mut device, 0, 2, 0x80);
    ticks(&mut device, 400);
    set(&mut device, 0, 1, 0x00);
    assert_hung_in(&mut device, 501);
}

/// A drive and an outside level that cover each other: the combined level stays, and the count goes on.
#[test]
fn covered_changes_are_none() {
    let mut device = owned_by(0, 0, 0x01);
    set(&mut device, 0, 2, 0x00); // both low
    ticks(&mut device, 100);
    run(&mut device, &[lines(0, 0, 1)]);
    set(&mut device, 0, 2, 0xC0);
    assert_eq!((device.scl_low_count, device.sda_low_count), (100, 100));
    assert_hung_in(&mut device, 400);
}

/// The hold pulls SCL low. The TICK that ends it is counted first and restarts then.
#[test]
fn a_hold_and_its_end() {
    let mut device = Device::power_up();
    set(&mut device, 0, 1, 0x10);
    run(&mut device, &[lines(1, 0, 1), general_call(0, 6)]);
    ticks(&mut device, 34);
    assert_eq!(device.sda_low_count, 34);
    ticks(&mut device, 1);
    assert_eq!((device.hold, device.sda_low_count), (0, 0));
    assert_hung_in(&mut device, 501);
    // With SCL low outside the end of the hold changes no level.
    let mut device = Device::power_up();
    set(&mut device, 0, 1, 0x10);
    run(&mut device, &[lines(0, 0, 1), general_call(0, 6)]);
    ticks(&mut device, 35);
    assert_eq!((device.scl_low_count, device.sda_low_count), (35, 35));
    assert_hung_in(&mut device, 465);
}

/// "A refused event restarts nothing", nor does a PULSE, a byte or a general call.
#[test]
fn what_restarts_nothing() {
    let mut device = sda_low_for(0);
    set(&mut device, 0, 1, 0x0D);
    ticks(&mut device, 500);
    assert_eq!(device.step([5, 0, 0, 2])[0], 3);
    assert_eq!(device.step([5, 2, 0, 1])[0], 3);
    run(&mut device, &[pulse(0), pulse(0), pulse(1)]);
    assert_eq!(device.step(pulse(1))[0], 4);
    assert_eq!(device.step(general_call(1, 0x07))[0], 1);
    set(&mut device, 1, 2, 0x00); // not granted: no drive
    assert_hung_in(&mut device, 1);
}

/// Every reset takes both counts back, with the lines still low.
#[test]
fn resets() {
    for (low, count) in [(lines(0, 1, 1), 500), (lines(1, 0, 1), 501)] {
        for event in [reset(), general_call(0, 6), general_call(1, 6)] {
            let mut device = Device::power_up();
            run(&mut device, &[low]);
            ticks(&mut device, 550);
            assert!(hung(&device));
            run(&mut device, &[event]);
            assert!(!hung(&device));
            assert_hung_in(&mut device, count);
        }
    }
}

/// The cut at 35 ticks goes by SCL's count, which no change of SDA restarts.
#[test]
fn scl_counts_as_before() {
    let mut device = owned_by(0, 0, 0x45);
    run(&mut device, &[lines(0, 1, 1)]);
    ticks(&mut device, 20);
    run(&mut device, &[lines(0, 0, 1), lines(0, 1, 1), lines(0, 0, 1)]);
    assert_eq!(switch(ticks(&mut device, 14)), Some(0));
    assert_eq!(switch(ticks(&mut device, 1)), None);
    assert_hung_in(&mut device, 465);
}

/// The random cases come to both ends often: a line that is low for about as long as a hung bus
/// needs, and the bus hung or not. A third of the long lists and more have a hung bus.
#[test]
fn random_cases_hang_and_do_not() {
    let (mut all, mut lists) = (Happenings::default(), 0);
    for place in 0..150 {
        let mut one = Happenings::default();
        one.run(Kind::Pca9641, &event_list(seed_of(102, place), 1500));
        lists += usize::from(one.count("hung by SCL") + one.count("hung by SDA") > 0);
        all.add(&one);
    }
    assert!(lists > 50, "{lists} of 150 lists");
    for line in ["SCL", "SDA"] {
        let [hung, not] = ["hung", "never hung"]
            .map(|end| all.count(&format!("{line} low for 490 ticks and more, {end}")));
        assert!(hung > 10 && not > 10, "{line}: {hung} hung, {not} not");
    }
}
