//! The winner table, all twelve places, and drop-outs of claimants.

mod bench;
use bench::*;

/// A device on which this master was granted last and nobody asks now.
fn after(last: Option<u8>) -> Device {
    match last {
        None => Device::power_up(),
        Some(m) => {
            let mut device = owned_by(m, 0, 0x01);
            set(&mut device, m, 1, 0x00);
            device
        }
    }
}

#[test]
fn winner_table() {
    // Rows and columns as in document 01, part 5.
    let rows = [
        (0x01, 0x01, [0, 1, 0]),
        (0x01, 0x81, [1, 1, 1]),
        (0x81, 0x01, [0, 0, 0]),
        (0x81, 0x81, [1, 1, 0]),
    ];
    for (v0, v1, winners) in rows {
        for (last, winner) in [None, Some(0), Some(1)].into_iter().zip(winners) {
            let mut device = after(last);
            run(&mut device, &[command(0, 1), command(1, 1), pair(v0, v1)]);
            assert_eq!(device.claimant(), Some(winner), "{v0:02X} {v1:02X} {last:?}");
            let answer = run(&mut device, &[stop(0), stop(1)]);
            assert_eq!(owner(answer), Some(winner as u8));
        }
    }
}

/// The first request has the claim, whatever the priorities.
#[test]
fn first_request_wins() {
    let mut device = Device::power_up();
    run(&mut device, &[command(0, 1), command(1, 1), write(0, 0x01), write(1, 0x81), stop(1)]);
    assert_eq!((device.claimant(), device.owner()), (Some(0), None));
    assert_eq!(owner(run(&mut device, &[stop(0)])), Some(0));
}

/// Reading 8. A drop-out and the next claim are in the same step.
#[test]
fn drop_out_and_next_claim() {
    let mut device = Device::power_up();
    run(&mut device, &[command(0, 1), write(0, 0x01)]);
    set(&mut device, 1, 1, 0x05);
    let answer = run(&mut device, &[write(0, 0x00)]);
    assert_eq!((owner(answer), switch(answer)), (Some(1), Some(1)));
    // The claim is left before the grant, so no interrupt is noted for master 0.
    assert_eq!((get(&mut device, 0, 4), get(&mut device, 1, 4)), (0x00, 0x04));
}
