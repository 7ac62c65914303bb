//! readings.md, points 12 to 15, and the sentences of "Registers".

mod bench;
use bench::*;

#[test]
fn registers_after_reset() {
    let mut device = Device::power_up();
    let expected = [0x38, 0x00, 0xC8, 0x00, 0x00, 0x7F, 0x00, 0x00];
    for m in [0, 1] {
        for register in 0..8 {
            assert_eq!(get(&mut device, m, register), expected[register as usize]);
        }
    }
}

/// Point 12. "While granted" is of the writing master.
#[test]
fn rt_is_kept_while_granted() {
    let mut device = owned_by(0, 3, 0x01);
    set(&mut device, 0, 3, 200);
    set(&mut device, 1, 3, 100);
    assert_eq!((get(&mut device, 0, 3), get(&mut device, 1, 3)), (3, 100));
    ticks(&mut device, 3);
    set(&mut device, 0, 3, 200);
    assert_eq!(get(&mut device, 0, 3), 200);
}

/// Drives act only for a granted writer with BUS_CONNECT 0.
#[test]
fn drives() {
    let mut device = owned_by(0, 0, 0x01);
    assert_eq!(scl_sda(set(&mut device, 1, 2, 0x00)), (1, 1));
    assert_eq!(scl_sda(set(&mut device, 0, 2, 0x80)), (0, 1));
    assert_eq!(scl_sda(set(&mut device, 0, 2, 0x40)), (1, 0));
    assert_eq!(get(&mut device, 1, 2), 0x49); // the partner sees the levels and the grant
    assert_eq!(scl_sda(set(&mut device, 0, 1, 0x01)), (1, 0)); // BUS_CONNECT 0 keeps them
    assert_eq!(scl_sda(set(&mut device, 0, 1, 0x05)), (1, 1)); // BUS_CONNECT 1 releases them
    assert_eq!(scl_sda(set(&mut device, 0, 2, 0x00)), (1, 1)); // connected: ignored
}

/// Point 13. 20h sets the test interrupt and pulls both lines low.
#[test]
fn test_interrupt() {
    let mut device = owned_by(0, 0, 0x01);
    set(&mut device, 0, 5, 0x77);
    set(&mut device, 1, 5, 0x77);
    let answer = set(&mut device, 0, 2, 0x20);
    assert_eq!((scl_sda(answer), answer[3] & 3), ((0, 0), 1));
    let answer = set(&mut device, 1, 2, 0x20);
    assert_eq!(answer[3] & 3, 3);
    // A 0 in bit 5 has no effect, and a written 1 clears.
    set(&mut device, 0, 2, 0xC0);
    assert_eq!(get(&mut device, 0, 4), 0x0C);
    assert_eq!(set(&mut device, 0, 4, 0x08)[3] & 3, 2);
    assert_eq!(get(&mut device, 0, 4), 0x04);
}

/// Mail, both ways.
#[test]
fn mail() {
    for (m, p) in [(0, 1), (1, 0)] {
        let mut device = Device::power_up();
        run(&mut device, &[command(m, 0x86), write(m, 0x12)]);
        assert_eq!(get(&mut device, p, 2), 0xC8); // the low byte alone fills nothing
        assert_eq!(get(&mut device, p, 6), 0x12);
        run(&mut device, &[write(m, 0x34), stop(m)]);
        assert_eq!((get(&mut device, p, 2), get(&mut device, m, 2)), (0xD8, 0xC0));
        assert_eq!((get(&mut device, p, 4), get(&mut device, m, 4)), (0x20, 0x00));
        // A read of 6 does not empty the box.
        assert_eq!(get(&mut device, p, 6), 0x12);
        assert_eq!((get(&mut device, p, 2), get(&mut device, m, 4)), (0xD8, 0x00));
        // Dropped while full, but acknowledged.
        set(&mut device, m, 6, 0x99);
        set(&mut device, m, 7, 0x99);
        assert_eq!((get(&mut device, p, 6), get(&mut device, p, 7)), (0x12, 0x34));
        // Emptied by that read of 7. Point 14: bit 5 stays set.
        assert_eq!((get(&mut device, p, 2), get(&mut device, m, 2)), (0xC8, 0xC8));
        assert_eq!((get(&mut device, p, 4), get(&mut device, m, 4)), (0x20, 0x10));
        // The bytes remain readable, and a second read of 7 empties nothing.
        set(&mut device, m, 4, 0x10);
        assert_eq!((get(&mut device, p, 6), get(&mut device, p, 7)), (0x12, 0x34));
        assert_eq!(get(&mut device, m, 4), 0x00);
    }
}

/// Point 15. A bit that one clears and the other sets ends set.
#[test]
fn pair_clash_on_bit_5() {
    for m in [0, 1] {
        let mut device = Device::power_up();
        run(&mut device, &[command(m, 4), command(1 - m, 7)]);
        let values = if m == 0 { (0x3F, 0x55) } else { (0x55, 0x3F) };
        run(&mut device, &[pair(values.0, values.1)]);
        assert_eq!(run(&mut device, &[read(m)])[1], 0x20);
    }
}

/// Point 15. A byte that is not acknowledged does not stop the other.
#[test]
fn pair_with_a_byte_not_acknowledged() {
    let mut device = Device::power_up();
    run(&mut device, &[command(0, 0x80), command(1, 3)]);
    assert_eq!(device.step(pair(0x11, 0x22))[0], 1);
    assert_eq!(get(&mut device, 1, 3), 0x22);
    // Point 16 and "acknowledged or not (H)": the pointer rose to 1.
    assert_eq!(device.masters[0].pointer, 1);
    run(&mut device, &[write(0, 0x81)]);
    assert_eq!(device.masters[0].contr, 0x81);
}

/// "Bits 5 to 0 stay until written 1", each bit alone.
#[test]
fn interrupts_are_cleared_one_by_one() {
    for bit in 0..8 {
        let mut device = Device::power_up();
        device.masters[0].int_status = 0x3F;
        set(&mut device, 0, 5, 0x00);
        let answer = set(&mut device, 0, 4, 1 << bit);
        assert_eq!(get(&mut device, 0, 4), 0x3F & !(1 << bit));
        assert_eq!(answer[3] & 3, 1);
    }
}

/// INT_STATUS bit 6 equals BUS_HUNG, for either line. More of it is in `hung.rs`.
#[test]
fn hung_bus() {
    for (low, count) in [(lines(0, 1, 1), 500), (lines(1, 0, 1), 501)] {
        let mut device = Device::power_up();
        set(&mut device, 1, 5, 0x3F);
        run(&mut device, &[low]);
        assert_eq!(ticks(&mut device, count - 1)[3] & 3, 0);
        assert_eq!(ticks(&mut device, 1)[3] & 3, 2);
        assert_eq!(get(&mut device, 0, 2) & 0x04, 0x04);
        set(&mut device, 0, 4, 0xFF); // it is not cleared by writing 1
        assert_eq!(get(&mut device, 0, 4), 0x40);
        assert_eq!(ticks(&mut device, 100)[3] & 3, 2);
        assert_eq!(run(&mut device, &[lines(1, 1, 1)])[3] & 3, 0);
        assert_eq!(get(&mut device, 0, 4), 0x00);
    }
}

/// INT_MSK bit 7 reads 0, and CONTR bit 1 is read only.
#[test]
fn bits_that_are_not_stored() {
    let mut device = Device::power_up();
    set(&mut device, 0, 5, 0xFF);
    set(&mut device, 0, 1, 0x02);
    assert_eq!((get(&mut device, 0, 5), get(&mut device, 0, 1)), (0x7F, 0x00));
}
