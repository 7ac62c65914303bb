//! The cost of an event that reaches all: a TICK over a shelf of 16 devices against a TICK on each
//! of 16 single images, in one run by turns. `shelf_rate [ROUNDS]`: the best round of so many counts.

use gunwaleish::{Device, Part, Shelf};
use std::time::Instant;

const PLACES: u8 = 16;
const TICKS: u32 = 20_000;
const TICK: [u8; 4] = [6, 0, 0, 0];

fn main() {
    let rounds = match std::env::args().nth(1).map(|word| word.parse::<u32>()) {
        None => 30,
        Some(Ok(rounds)) if rounds > 0 => rounds,
        Some(_) => {
            eprintln!("shelf_rate [ROUNDS]: ROUNDS is a number from 1 on");
            std::process::exit(2);
        }
    };
    let mut best = [f64::INFINITY; 2];
    for _ in 0..rounds {
        best[0] = best[0].min(ticks_of_a_shelf());
        best[1] = best[1].min(ticks_of_single_images());
    }
    println!("TICK over a shelf of {PLACES}: {:.0} ns, best of {rounds}", best[0]);
    println!("TICK on {PLACES} single images: {:.0} ns", best[1]);
    println!("shelf against single images: {:.2} of the time", best[0] / best[1]);
}

/// Nanoseconds a TICK.
fn ticks_of_a_shelf() -> f64 {
    let places: Vec<(u8, Part)> = (0..PLACES).map(|place| (0x60 + place, Part::Pca9641)).collect();
    let mut shelf = Shelf::new(&places).expect("16 devices with addresses of their own");
    let start = Instant::now();
    for _ in 0..TICKS {
        std::hint::black_box(shelf.step(0, TICK).is_ok());
    }
    start.elapsed().as_nanos() as f64 / f64::from(TICKS)
}

fn ticks_of_single_images() -> f64 {
    let mut devices: Vec<Device> = (0..PLACES).map(|_| Device::fresh(Part::Pca9641)).collect();
    let start = Instant::now();
    for _ in 0..TICKS {
        for device in &mut devices {
            std::hint::black_box(device.step(TICK));
        }
    }
    start.elapsed().as_nanos() as f64 / f64::from(TICKS)
}
