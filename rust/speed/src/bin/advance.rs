//! The cost of quiet time: an advance by 65,535 ticks against as many TICK events on the same image,
//! in one run by turns. `advance [ROUNDS]`: the best round of so many counts.

use gunwaleish::{Device, Event, Master, Part, MOST_TICKS};
use std::time::Instant;

const TICK: [u8; 4] = [6, 0, 0, 0];
/// An advance is too short to time alone.
const ADVANCES: u32 = 1000;

fn main() {
    let rounds = match std::env::args().nth(1).map(|word| word.parse::<u32>()) {
        None => 30,
        Some(Ok(rounds)) if rounds > 0 => rounds,
        Some(_) => {
            eprintln!("advance [ROUNDS]: ROUNDS is a number from 1 on");
            std::process::exit(2);
        }
    };
    for (words, device) in [("a settled device", settled()), ("two reserves and a hold", busy())] {
        let mut best = [f64::INFINITY; 2];
        for _ in 0..rounds {
            let (at_once, jumped) = advances(&device);
            let (one_by_one, stepped) = steps(&device);
            assert_eq!(jumped, stepped, "both leave the same device");
            best = [best[0].min(at_once), best[1].min(one_by_one)];
        }
        println!("{words}, {MOST_TICKS} ticks at once: {:.0} ns, best of {rounds}", best[0]);
        println!("{words}, {MOST_TICKS} steps: {:.0} ns", best[1]);
        println!("{words}: {:.0} times as fast", best[1] / best[0]);
    }
}

fn write(device: &mut Device, master: Master, register: u8, value: u8) {
    device.step(Event::Command { master, code: register });
    device.step(Event::Write { master, value });
    device.step(Event::Stop { master });
}

/// Owned and connected without a reserve, so that no tick changes anything but counts.
fn settled() -> Device {
    let mut device = Device::fresh(Part::Pca9641);
    write(&mut device, Master::Zero, 1, 0x05);
    for _ in 0..200 {
        device.step(TICK);
    }
    device
}

/// A hold of 35 ticks in which both ask, with a reserve each: three ticks change something.
fn busy() -> Device {
    let mut device = Device::fresh(Part::Pca9641);
    write(&mut device, Master::Zero, 1, 0x10);
    device.step(Event::GeneralCall { master: Master::Zero, code: 0x06 });
    for (register, value) in [(3, 2), (1, 0x01)] {
        write(&mut device, Master::Zero, register, value);
        write(&mut device, Master::One, register, value);
    }
    device
}

/// Nanoseconds an advance, and the device after it.
fn advances(from: &Device) -> (f64, Device) {
    let mut after = from.clone();
    let start = Instant::now();
    for _ in 0..ADVANCES {
        after = from.clone();
        std::hint::black_box(after.advance(MOST_TICKS).is_ok());
    }
    (start.elapsed().as_nanos() as f64 / f64::from(ADVANCES), after)
}

/// Nanoseconds all steps, and the device after them.
fn steps(from: &Device) -> (f64, Device) {
    let mut after = from.clone();
    let start = Instant::now();
    for _ in 0..MOST_TICKS {
        std::hint::black_box(after.step(TICK));
    }
    (start.elapsed().as_nanos() as f64, after)
}
