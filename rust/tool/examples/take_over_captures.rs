//! Draws `traces/take-over.capture` and `traces/take-over-early.vcd`: both upstream buses and the lines below
//! in the generator's story of two reserves that run out, with a right chip as raw samples, and as VCD with
//! one whose reserves end a tick early. It writes them into the folder that is named.

use std::path::Path;
use std::{env, fs, process};

use model::wire::formats::{raw, vcd};
use model::wire::play::play;
use model::wire::stories::stories;
use model::wire::{Flaw, Played};
use model::Kind;

fn take_over(flaw: Flaw) -> Played {
    let story = stories().into_iter().find(|story| story.name == "take-over");
    play(&story.expect("the generator has this story").scene(Kind::Pca9641, flaw, 0))
}

fn main() {
    let Some(folder) = env::args().nth(1) else {
        eprintln!("usage: take_over_captures FOLDER");
        process::exit(2);
    };
    let folder = Path::new(&folder);
    let early = take_over(Flaw::ReserveShort);
    let text = vcd(&early.samples, 7, early.setting.samples_per_tick);
    let written = fs::write(folder.join("take-over.capture"), raw(&take_over(Flaw::None).samples))
        .and_then(|()| fs::write(folder.join("take-over-early.vcd"), text));
    if let Err(error) = written {
        eprintln!("take_over_captures: {}: {error}", folder.display());
        process::exit(2);
    }
}
