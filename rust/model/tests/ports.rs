//! readings.md, points 16 to 18, and the table of "Events".

mod bench;
use bench::*;

/// Point 16, and a COMMAND that is not acknowledged.
#[test]
fn ports() {
    let mut device = Device::power_up();
    assert_eq!(device.step(write(0, 1))[0], 4);
    assert_eq!(device.step(stop(0))[0], 4);
    run(&mut device, &[command(0, 0)]);
    assert_eq!(device.step(write(0, 1))[0], 1);
    assert_eq!(device.step(write(0, 1))[0], 1);
    // READ closes the port for writing.
    run(&mut device, &[read(0)]);
    assert_eq!(device.step(write(0, 1))[0], 4);
    run(&mut device, &[stop(0)]);
    // Both the pointer and auto-increment are kept; the port is open.
    run(&mut device, &[command(0, 0x85), stop(0)]);
    assert_eq!(device.step(command(0, 0x0A))[0], 1);
    assert_eq!(device.step(write(0, 1))[0], 4);
    assert_eq!(run(&mut device, &[read(0)])[1], 0x7F);
    assert_eq!(device.masters[0].pointer, 6);
    run(&mut device, &[stop(0)]);
    // An open port of any sort holds back the grant.
    run(&mut device, &[command(0, 1), write(0, 1), read(0)]);
    assert_eq!(owner(ticks(&mut device, 3)), None);
    assert_eq!(owner(run(&mut device, &[stop(0)])), Some(0));
}

/// A COMMAND that is not acknowledged opens a port at rest, and shuts one that
/// is open for writing against further bytes.
#[test]
fn command_not_acknowledged() {
    let mut device = Device::power_up();
    assert_eq!(device.step(command(0, 0x40))[0], 1);
    run(&mut device, &[stop(0)]);
    run(&mut device, &[command(0, 3)]);
    assert_eq!(device.step(command(0, 0x40))[0], 1);
    assert_eq!(device.step(write(0, 1))[0], 4);
    // Such an open port holds back the grant.
    let mut device = Device::power_up();
    run(&mut device, &[command(0, 1), write(0, 1)]);
    device.step(command(0, 0x08));
    assert_eq!(owner(ticks(&mut device, 2)), None);
    assert_eq!(owner(run(&mut device, &[stop(0)])), Some(0));
}

/// Refusal 3 exactly where the table of "Events" says so: each field, each value.
#[test]
fn ranges_of_fields() {
    let m = vec![0, 1];
    let any: Vec<u8> = (0..=255).collect();
    let unused = vec![0];
    let kinds = [
        [&m, &any, &unused],         // COMMAND m, c
        [&m, &any, &unused],         // WRITE m, v
        [&m, &unused, &unused],      // READ m
        [&m, &unused, &unused],      // STOP m
        [&any, &any, &unused],       // PAIR v0, v1
        [&m, &m, &m],                // LINES, levels 0 or 1
        [&unused, &unused, &unused], // TICK
        [&m, &unused, &unused],      // PULSE SDA
        [&unused, &unused, &unused], // RESET
        [&m, &any, &unused],         // GENERAL CALL m, b
    ];
    for (kind, fields) in kinds.into_iter().enumerate() {
        for place in 0..3 {
            for value in 0..=255u8 {
                let mut event = [kind as u8, 0, 0, 0];
                event[1 + place] = value;
                let outcome = Device::power_up().step(event)[0];
                assert_eq!(outcome == 3, !fields[place].contains(&value), "{event:?}");
                assert_ne!(outcome, 2);
            }
        }
    }
    for kind in 10..=255 {
        assert_eq!(Device::power_up().step([kind, 255, 255, 255])[0], 2);
    }
}

/// PAIR wants both ports open for writing.
#[test]
fn pair_wants_both_ports() {
    let mut device = Device::power_up();
    run(&mut device, &[command(0, 3)]);
    assert_eq!(device.step(pair(1, 2))[0], 4);
    run(&mut device, &[read(1)]);
    assert_eq!(device.step(pair(1, 2))[0], 4);
    assert_eq!(get(&mut device, 0, 3), 0);
}

/// Point 17. A general call other than 06h leaves the port as it was.
#[test]
fn general_call() {
    let mut device = Device::power_up();
    run(&mut device, &[command(0, 3)]);
    let before = device.clone();
    assert_eq!(device.step(bench::general_call(0, 7))[0], 1);
    assert_eq!(device, before);
    run(&mut device, &[bench::general_call(0, 6)]);
    assert_eq!(device.step(stop(0))[0], 4);
}

/// Point 18, refusals 2 to 4, and their order.
#[test]
fn refused_events_change_nothing() {
    let mut device = owned_by(1, 0, 0x0D);
    set(&mut device, 1, 5, 0x00);
    let refused = [
        ([10, 0, 0, 0], 2),
        ([255, 9, 9, 9], 2),
        ([0, 2, 0, 0], 3),
        ([1, 2, 0, 0], 3), // also out of sequence
        ([1, 0, 0, 1], 3),
        ([2, 0, 1, 0], 3),
        ([3, 0, 0, 1], 3),
        ([4, 0, 0, 1], 3),
        ([5, 1, 2, 1], 3),
        ([6, 0, 1, 0], 3),
        ([7, 2, 0, 0], 3),
        ([8, 1, 0, 0], 3),
        ([9, 0, 6, 1], 3),
        ([1, 0, 0, 0], 4),
        ([3, 0, 0, 0], 4),
        ([4, 0, 0, 0], 4),
    ];
    for (event, number) in refused {
        let before = device.clone();
        assert_eq!(device.step(event), [number, 0x00, 0x32, 0x0E], "{event:?}");
        assert_eq!(device, before);
    }
    run(&mut device, &[pulse(1)]);
    assert_eq!(device.step(pulse(1)), [4, 0x00, 0x2A, 0x0E]);
}

/// The bit of the last acknowledged COMMAND counts: auto-increment on and off.
#[test]
fn auto_increment() {
    let mut device = Device::power_up();
    run(&mut device, &[command(0, 0x83), write(0, 9)]);
    assert_eq!(device.masters[0].pointer, 4);
    run(&mut device, &[command(0, 0x03), write(0, 7), write(0, 8), read(0)]);
    assert_eq!(device.masters[0].pointer, 3);
    assert_eq!(get(&mut device, 0, 3), 8);
    // Pointer and auto-increment outlive the STOP.
    run(&mut device, &[command(0, 0x83), stop(0), read(0), stop(0)]);
    assert_eq!(device.masters[0].pointer, 4);
    // One master's port is not the other's.
    assert_eq!(device.masters[1].pointer, 0);
}
