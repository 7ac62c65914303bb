//! compare [ROUNDS]: the long comparison. SEED=n repeats a run; without it the clock chooses.

use std::thread;

use compare::advancing::advances_about_ends;
use compare::fixed::*;
use compare::imaging::{images_byte_by_byte, images_of_every_length};
use compare::sharing::{joins_about_the_most, shares_of_stored, totals_of_every_length};
use compare::sheets::{sheets_one_by_one, sheets_side_by_side};
use compare::shelving::{names_on_rows, rows_of_every_length};
use compare::starting::{limits_of_orders, orders_of_every_length};
use compare::waiting::{waits_of_every_reserve, waits_one_by_one};
use compare::{clock_seed, round, seed_or, Figures};
use model::traces::seed_of;

const USUAL_ROUNDS: u64 = 20_000;

fn main() {
    let rounds = match std::env::args().nth(1).map(|word| word.parse()) {
        None => USUAL_ROUNDS,
        Some(Ok(rounds)) => rounds,
        Some(Err(_)) => {
            eprintln!("usage: [SEED=n] compare [ROUNDS]");
            std::process::exit(2);
        }
    };
    let seed = seed_or(clock_seed());
    println!("seed {seed}, {rounds} rounds");
    let mut figures = all_rounds(seed, rounds);
    all_fixed(&mut figures);
    print!("{figures}{}", figures.happenings());
    let never = figures.never();
    if !never.is_empty() {
        println!("NEVER OCCURRED: {}", never.join("; "));
    }
    std::process::exit(i32::from(!figures.agree() || !never.is_empty()));
}

/// The calls that are few enough to try them all.
fn all_fixed(figures: &mut Figures) {
    kept_traces(figures);
    short_strings(figures);
    third_sections(figures);
    all_kinds(figures);
    all_pins(figures);
    all_addresses(figures);
    captures_about_bytes(figures);
    short_captures(figures);
    sheets_one_by_one(figures);
    sheets_side_by_side(figures);
    waits_one_by_one(figures);
    waits_of_every_reserve(figures);
    images_byte_by_byte(figures);
    images_of_every_length(figures);
    orders_of_every_length(figures);
    limits_of_orders(figures);
    names_on_rows(figures);
    rows_of_every_length(figures);
    shares_of_stored(figures);
    totals_of_every_length(figures);
    joins_about_the_most(figures);
    advances_about_ends(figures);
}

/// All rounds, dealt out to as many threads as the machine runs at once.
fn all_rounds(seed: u64, rounds: u64) -> Figures {
    let threads = thread::available_parallelism().map_or(1, |count| count.get() as u64);
    let part = |first: u64| {
        let mut figures = Figures::new(seed);
        (first..rounds)
            .step_by(threads as usize)
            .for_each(|place| round(seed_of(seed, place), &mut figures));
        figures
    };
    let mut all = Figures::new(seed);
    thread::scope(|scope| {
        let running: Vec<_> = (0..threads).map(|first| scope.spawn(move || part(first))).collect();
        for thread in running {
            all.add(thread.join().expect("a thread of the comparison ended early"));
        }
    });
    all
}
