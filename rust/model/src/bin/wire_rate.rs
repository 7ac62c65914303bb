//! `wire_rate [COUNT]`: plays so many random captures of each sort (200 if none is named), listens to
//! them, sees that what is heard is what was played, and prints how fast the listener is; and how fast on
//! a bus on which nothing moves.

use std::time::{Duration, Instant};

use model::part::Kind;
use model::wire::listen::{listen, Heard};
use model::wire::play::play;
use model::wire::random::{scene, Sort};
use model::wire::{Played, Setting};

fn main() {
    let count = match std::env::args().nth(1).map(|word| word.parse::<u32>()) {
        None => 200,
        Some(Ok(count)) => count,
        Some(Err(_)) => {
            eprintln!("usage: wire_rate [COUNT]");
            std::process::exit(2);
        }
    };
    for sort in [Sort::Apart, Sort::Overlapping, Sort::Noisy, Sort::Phased] {
        let (mut samples, mut events, mut time) = (0, 0, Duration::ZERO);
        for seed in 0..count {
            let played = play(&scene(sort, seed.into()));
            let (heard, took) = timed(played.setting, &played.samples);
            check(&played, &heard, &format!("{sort:?} {seed}"));
            samples += played.samples.len();
            events += played.events.len();
            time += took;
        }
        println!("{sort:?}: {count} captures, {events} events, {}", rate(samples, time));
    }
    let quiet = Setting { address: 0x71, kind: Kind::Pca9641, samples_per_tick: 1000 };
    let samples = vec![0x7F; 10_000_000];
    let (_, took) = timed(quiet, &samples);
    println!("Nothing moves: {}", rate(samples.len(), took));
}

fn timed(setting: Setting, samples: &[u8]) -> (Heard, Duration) {
    let begun = Instant::now();
    let heard = listen(setting, samples);
    (heard, begun.elapsed())
}

fn check(played: &Played, heard: &Heard, what: &str) {
    let meant = (&played.events, &played.reads, &played.faults);
    if (&heard.events, &heard.reads, &heard.faults) != meant {
        eprintln!("wire_rate: {what}: what is heard is not what was played");
        std::process::exit(1);
    }
}

fn rate(samples: usize, time: Duration) -> String {
    let millions = samples as f64 / 1e6;
    format!("{millions:.1} million samples: {:.0} million a second", millions / time.as_secs_f64())
}
