//! The bus share report (request #112): full traces added to totals by the proved library, and by a plain
//! loop over the tuned stepper that counts the same, in one run by turns, on all mixes or on the one of
//! this name. `share_rate [ROUNDS [MIX]]`.

use gunwaleish::{Master, Totals};
use speed::asked::rounds_and_mixes;
use speed::mixes::Mix;
use speed::saying::say;
use speed::timing::by_turns;
use stepper::tuned::shared_in;

fn main() {
    let (rounds, mixes) = rounds_and_mixes("share_rate", 60);
    say(&format!("Full traces of 4,096 events added to totals, best of {rounds} by turns:"));
    for mix in mixes {
        compare(&mix, rounds);
    }
}

fn compare(mix: &Mix, rounds: usize) {
    let mut proved = Totals::new();
    let mut plain = [0; 6];
    let mut by_library = || {
        proved = Totals::new();
        for trace in &mix.traces {
            proved.add(trace).expect("the traces are accepted");
        }
    };
    let mut by_stepper = || {
        plain = [0; 6];
        for trace in &mix.traces {
            let own = shared_in(trace).expect("the traces are accepted");
            plain.iter_mut().zip(own).for_each(|(total, more)| *total += more);
        }
    };
    let count = mix.traces.len();
    let [a, b] =
        by_turns(rounds, count, [&mut by_library, &mut by_stepper]).map(|times| times.best);
    let [zero, one] = [Master::Zero, Master::One]
        .map(|master| [proved.owned(master), proved.connected(master), proved.waited(master)]);
    assert_eq!([zero, one].concat(), plain, "both count the same");
    say(&format!(
        "{:<12} proved {:>7.0} traces a second, {:.1} ns an event; plain {:>7.0}, {:.1}; ratio {:.2}",
        mix.name,
        1e9 / a,
        a / 4096.0,
        1e9 / b,
        b / 4096.0,
        b / a
    ));
}
