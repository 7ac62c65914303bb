//! The incident of box 14, told from two sample traces that differ in one byte.
//!
//! Run it from the repository's root, or name other traces:
//! `cargo run --release --offline --manifest-path rust/gunwaleish/Cargo.toml --example incident`

use std::path::PathBuf;
use std::process::ExitCode;
use std::{env, fs};

use gunwaleish::{run, Answer, Event, Master};

fn main() -> ExitCode {
    let mut traces: Vec<PathBuf> = env::args_os().skip(1).map(PathBuf::from).collect();
    if traces.is_empty() {
        let folder = PathBuf::from("traces");
        traces = vec![folder.join("box14-rt00.trace"), folder.join("box14-rt50.trace")];
    }
    for path in traces {
        println!("{}", path.display());
        match fs::read(&path) {
            Ok(trace) => tell(&trace),
            Err(error) => {
                println!("  cannot be read: {error}");
                return ExitCode::FAILURE;
            }
        }
    }
    ExitCode::SUCCESS
}

/// Says in words when the bus changed hands, and on what ground the claim was won.
fn tell(trace: &[u8]) {
    let run = match run(trace) {
        Ok(run) => run,
        Err(refusal) => return println!("  {refusal}"),
    };
    println!("  {} at address {:02X}h, {} events", run.part, run.address, run.events.len());
    let mut owner = None;
    let mut ticks = 0;
    for (place, (event, answer)) in run.events.iter().zip(&run.answers).enumerate() {
        ticks += usize::from(*event == Event::Tick);
        if let Some(words) = in_words(owner, answer) {
            println!("  event {:>3}, {ticks:>3} ticks passed: {words}", place + 1);
        }
        owner = answer.owner;
    }
    println!("  at the end, {ticks} ticks passed: {}", holder(owner));
}

fn in_words(before: Option<Master>, answer: &Answer) -> Option<String> {
    let won = answer.ground.map_or(String::new(), |ground| format!(" (its claim won: {ground})"));
    match (before, answer.owner) {
        (old, new) if old == new => None,
        (None, Some(new)) => Some(format!("master {new} is granted the bus{won}")),
        (Some(old), None) => Some(format!("master {old} no longer owns the bus, nobody does")),
        (Some(old), Some(new)) => {
            Some(format!("master {old} loses the bus and master {new} is granted it{won}"))
        }
        (None, None) => None,
    }
}

fn holder(owner: Option<Master>) -> String {
    match owner {
        None => "nobody owns the bus".to_string(),
        Some(master) => format!("master {master} owns the bus"),
    }
}
