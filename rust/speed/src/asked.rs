//! What the words after a program's name ask for: how often it measures, and on which mix.

use crate::mixes::{mixes, Mix};

/// The words `[ROUNDS [MIX]]` of a program: so many rounds, and all mixes or the one of this name. Where
/// they ask for nothing that there is, the program says so and ends.
pub fn rounds_and_mixes(program: &str, usual: usize) -> (usize, Vec<Mix>) {
    let rounds = match std::env::args().nth(1).map(|word| word.parse()) {
        None => usual,
        Some(Ok(rounds)) if rounds > 0 => rounds,
        Some(_) => fail(&format!("{program} [ROUNDS [MIX]]: ROUNDS is a number from 1 on")),
    };
    let wanted = std::env::args().nth(2);
    let is_wanted = |mix: &Mix| wanted.as_deref().is_none_or(|wanted| wanted == mix.name);
    let mixes = mixes().unwrap_or_else(|why| fail(&format!("{program}: {why}")));
    let mixes: Vec<Mix> = mixes.into_iter().filter(is_wanted).collect();
    if mixes.is_empty() {
        fail(&format!("{program}: there is no mix of this name"));
    }
    (rounds, mixes)
}

fn fail(why: &str) -> ! {
    eprintln!("{why}");
    std::process::exit(2);
}
