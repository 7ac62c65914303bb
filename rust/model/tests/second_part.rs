//! The second-source part of #105: its idle timer, its write pointer, and that all else stays.

mod bench;
use bench::*;
use model::event::{read_event, Event};
use model::part::BOTH_KINDS;
use model::traces::event_list_of;
use Kind::{Pca9641, Tpt29641};

/// RT 0, idle timer on: owner after 100 or 150 idle ticks, lost at the next.
#[test]
fn idle_timer() {
    for (kind, last) in [(Pca9641, 100), (Tpt29641, 150)] {
        for m in [0, 1] {
            let mut device = owned_by_on(kind, m, 0, 0x21);
            for _ in 0..last {
                assert_eq!(owner(ticks(&mut device, 1)), Some(m));
            }
            assert_eq!(owner(ticks(&mut device, 1)), None);
            assert_eq!(get(&mut device, m, 4), 0x06);
        }
    }
}

/// The count runs to its limit with the timer off too, and stops there.
#[test]
fn idle_count_stops() {
    for (kind, limit) in [(Pca9641, 101), (Tpt29641, 151)] {
        let mut device = owned_by_on(kind, 0, 0, 0x01);
        ticks(&mut device, limit as usize - 1);
        assert_eq!(device.idle_count, limit - 1);
        ticks(&mut device, 1);
        assert_eq!(device.idle_count, limit);
        assert_eq!(owner(ticks(&mut device, 300)), Some(0));
        assert_eq!(device.idle_count, limit);
    }
}

/// Reading 3 on the second part: switched on at 151 it takes the bus in that WRITE. At 101 and at
/// 150 it does not.
#[test]
fn idle_timer_switched_on() {
    for (count, lost) in [(101, false), (150, false), (151, true), (400, true)] {
        let mut device = owned_by_on(Tpt29641, 0, 0, 0x01);
        ticks(&mut device, count);
        let answer = run(&mut device, &[command(0, 1), write(0, 0x21)]);
        assert_eq!(owner(answer), if lost { None } else { Some(0) }, "{count} ticks");
    }
    // The tick that makes 151 then takes it.
    let mut device = owned_by_on(Tpt29641, 0, 0, 0x01);
    ticks(&mut device, 150);
    set(&mut device, 0, 1, 0x21);
    assert_eq!(owner(ticks(&mut device, 1)), None);
}

/// Traffic starts the count anew.
#[test]
fn traffic_at_150() {
    let mut device = owned_by_on(Tpt29641, 1, 0, 0x21);
    ticks(&mut device, 150);
    run(&mut device, &[lines(1, 0, 1), lines(1, 1, 1)]);
    assert_eq!(owner(ticks(&mut device, 150)), Some(1));
    assert_eq!(owner(ticks(&mut device, 1)), None);
}

/// Eight bytes from register 4 on, as source document 000 tells it: 4, 5, 6, 7, 0, 1, 2, 3. The byte
/// at 0 is not acknowledged, and the pointer goes on all the same.
#[test]
fn a_burst_rolls() {
    let mut device = Device::power_up_of(Tpt29641);
    run(&mut device, &[command(0, 0x84)]);
    let bytes = [0x3F, 0x55, 0x34, 0x12, 0x99, 0x81, 0x20, 0x07];
    let expected = [(0, 5), (0, 6), (0, 7), (0, 0), (1, 1), (0, 2), (0, 3), (0, 4)];
    for (byte, (outcome, pointer)) in bytes.into_iter().zip(expected) {
        assert_eq!(device.step(write(0, byte))[0], outcome);
        assert_eq!(device.masters[0].pointer, pointer);
    }
    run(&mut device, &[stop(0)]);
    let registers: Vec<u8> = [0, 1, 3, 4, 5].map(|at| get(&mut device, 0, at)).to_vec();
    assert_eq!(registers, [0x38, 0x83, 0x07, 0x0C, 0x55]);
    assert_eq!([get(&mut device, 1, 6), get(&mut device, 1, 7)], [0x34, 0x12]);
}

/// The same bytes on the first part: from the fourth on all go to register 7, where the box is full.
#[test]
fn a_burst_stays() {
    let mut device = Device::power_up_of(Pca9641);
    run(&mut device, &[command(0, 0x84)]);
    for byte in [0x3F, 0x55, 0x34, 0x12, 0x99, 0x81, 0x20, 0x07] {
        assert_eq!(device.step(write(0, byte))[0], 0);
    }
    assert_eq!((device.masters[0].pointer, device.masters[0].contr), (7, 0));
    assert_eq!(device.masters[1].mail_high, 0x12);
}

/// Without auto-increment no pointer moves. READ rolls on both parts.
#[test]
fn what_does_not_differ_in_pointers() {
    for kind in BOTH_KINDS {
        let mut device = Device::power_up_of(kind);
        run(&mut device, &[command(0, 7), write(0, 1), write(0, 2), stop(0)]);
        assert_eq!(device.masters[0].pointer, 7);
        run(&mut device, &[command(0, 0x87), read(0), stop(0)]);
        assert_eq!(device.masters[0].pointer, 0);
        run(&mut device, &[command(0, 0x80)]);
        assert_eq!(device.step(write(0, 9))[0], 1);
        assert_eq!(device.masters[0].pointer, 1);
    }
}

/// PAIR rolls each pointer that has auto-increment and stands at 7.
#[test]
fn pair_rolls() {
    for (kind, after) in [(Pca9641, 7), (Tpt29641, 0)] {
        let mut device = Device::power_up_of(kind);
        run(&mut device, &[command(0, 0x87), command(1, 0x07), pair(0x11, 0x22)]);
        assert_eq!(device.masters.clone().map(|m| m.pointer), [after, 7]);
        run(&mut device, &[command(0, 0x83), command(1, 0x87), pair(0x11, 0x22)]);
        assert_eq!(device.masters.clone().map(|m| m.pointer), [4, after]);
        // Both at 0 on the second part: not acknowledged, and both go to 1.
        run(&mut device, &[command(0, 0x87), command(1, 0x87), pair(0x11, 0x22)]);
        let outcome = device.step(pair(0x01, 0x01))[0];
        let second = kind == Tpt29641;
        assert_eq!(outcome, u8::from(second));
        assert_eq!(device.masters.clone().map(|m| m.pointer), if second { [1; 2] } else { [7; 2] });
        device.step(pair(0x01, 0x01));
        assert_eq!(device.claimant(), if second { Some(0) } else { None });
    }
}

/// "Every step keeps it, resets included."
#[test]
fn resets_keep_the_kind() {
    for kind in BOTH_KINDS {
        let mut device = owned_by_on(kind, 0, 0, 0x15);
        run(&mut device, &[lines(1, 0, 0), reset()]);
        assert_eq!(device.kind, kind);
        set(&mut device, 1, 1, 0x10);
        run(&mut device, &[general_call(1, 6)]);
        assert_eq!((device.kind, device.hold), (kind, 35));
    }
}

/// "All else stays as in 01": a reserve is counted in milliseconds and no idle wait follows it, and
/// a bus is hung as #102 has it.
#[test]
fn what_000_has_and_this_part_has_not() {
    let mut device = owned_by_on(Tpt29641, 0, 2, 0x21);
    assert_eq!(owner(ticks(&mut device, 1)), Some(0));
    assert_eq!(owner(ticks(&mut device, 1)), None);
    for (low, count) in [(lines(0, 1, 1), 500), (lines(1, 0, 1), 501)] {
        let mut device = Device::power_up_of(Tpt29641);
        run(&mut device, &[low]);
        ticks(&mut device, count - 1);
        assert!(!device.is_hung());
        ticks(&mut device, 1);
        assert!(device.is_hung());
    }
    let mut device = owned_by_on(Tpt29641, 0, 0, 0x45);
    run(&mut device, &[lines(0, 1, 1)]);
    assert_eq!(switch(ticks(&mut device, 34)), Some(0));
    assert_eq!(switch(ticks(&mut device, 1)), None);
}

/// Up to the first write past 7 and the tick that makes 101 the parts go together, over many lists:
/// the same answers, and the same device but for its kind.
#[test]
fn parts_go_together() {
    let mut steps = 0;
    for seed in 0..400 {
        let (mut one, mut two) = (Device::power_up_of(Pca9641), Device::power_up_of(Tpt29641));
        for event in event_list_of(BOTH_KINDS[seed as usize % 2], seed, 600) {
            if past_7(&one, event) || (event == tick() && one.idle_count == 100) {
                break;
            }
            assert_eq!(one.step(event), two.step(event));
            assert_eq!(Device { kind: Tpt29641, ..one.clone() }, two);
            steps += 1;
        }
    }
    assert!(steps > 20_000, "{steps} steps");
}

/// True if a byte is written at 7 with auto-increment.
fn past_7(device: &Device, event: [u8; 4]) -> bool {
    let at_7 = |m: usize| device.masters[m].pointer == 7 && device.masters[m].auto_increment;
    match read_event(event) {
        Ok(Event::Write { master, .. }) => at_7(master),
        Ok(Event::Pair { .. }) => at_7(0) || at_7(1),
        _ => false,
    }
}
