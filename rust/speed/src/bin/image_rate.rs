//! Single steps on an image: each event of the traces by itself, on all mixes or on the one of this name.
//! `image_rate [ROUNDS [MIX]]`: the best round of so many counts.

use gunwaleish::{Device, Part};
use speed::asked::rounds_and_mixes;
use speed::mixes::Mix;
use speed::saying::say;
use speed::timing::by_turns;

fn main() {
    let (rounds, mixes) = rounds_and_mixes("image_rate", 30);
    say(&format!("A step on an image, best of {rounds}:"));
    for mix in mixes {
        let steps = mix.traces.iter().flat_map(|trace| Mix::events(trace)).count();
        let [times] =
            by_turns(rounds, steps, [&mut || mix.traces.iter().for_each(|t| step_all(t))]);
        say(&format!("{:<12} {:.1} ns, {steps} steps a round", mix.name, times.best));
    }
}

/// The events of a trace one by one, on a fresh device of its part.
fn step_all(trace: &[u8]) {
    let part = if trace.last() == Some(&1) { Part::Tpt29641 } else { Part::Pca9641 };
    let mut device = Device::fresh(part);
    for event in Mix::events(trace) {
        if let Ok(event) = <[u8; 4]>::try_from(event) {
            std::hint::black_box(device.step(event));
        }
    }
}
