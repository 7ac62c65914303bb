//! The captures that the program `wire_captures` writes, each with its name and what is true of it.

use super::chip::{flaws, Flaw};
use super::lists::reread;
use super::noise;
use super::play::play;
use super::played::Played;
use super::random::{scene, Sort};
use super::stories::{stories, Story};
use crate::part::{Kind, BOTH_KINDS};
use crate::rng::Rng;

pub struct Named {
    pub name: String,
    pub played: Played,
}

/// All captures: the stories on a right chip of each kind, each chip that errs, and so many random
/// ones of each sort, from this seed on.
pub fn catalogue(seed: u64, count: u64) -> Vec<Named> {
    let mut all = right_stories(seed);
    let stories = by_length(seed);
    all.extend(flaws().into_iter().flat_map(|flaw| erring(flaw, &stories, seed)));
    all.extend((seed..seed + count).flat_map(random));
    all
}

fn part(kind: Kind) -> &'static str {
    match kind {
        Kind::Pca9641 => "pca9641",
        Kind::Tpt29641 => "tpt29641",
    }
}

fn right_stories(seed: u64) -> Vec<Named> {
    let played = |story: &Story, kind: Kind| Named {
        name: format!("story-{}-{}", story.name, part(kind)),
        played: play(&story.scene(kind, Flaw::None, seed)),
    };
    stories().iter().flat_map(|story| BOTH_KINDS.map(|kind| played(story, kind))).collect()
}

/// The stories, the shortest capture first.
fn by_length(seed: u64) -> Vec<Story> {
    let mut all = stories();
    let length = |story: &Story| play(&story.scene(Kind::Pca9641, Flaw::None, seed)).samples.len();
    all.sort_by_cached_key(length);
    all
}

/// A chip that errs, said to be of each kind, in the shortest story in which it shows. One that never
/// shows is told in the shortest of all.
fn erring(flaw: Flaw, stories: &[Story], seed: u64) -> Vec<Named> {
    let shown = |kind: Kind| {
        let mut told = stories.iter().map(|story| (story, play(&story.scene(kind, flaw, seed))));
        let shows =
            |(_, played): &(&Story, Played)| played.first_wrong().is_some() || flaw.never_shows();
        let (story, played) = told.find(shows).expect("a chip that can show does in some story");
        Named { name: format!("flaw-{}-{}-{}", flaw.name(), part(kind), story.name), played }
    };
    BOTH_KINDS.map(shown).into_iter().collect()
}

/// One of each sort: right ones with reads apart and overlapping, a noisy one, one whose milliseconds
/// are its own, one cut anywhere, one with glitches, in which a right chip may be heard wrongly, and
/// one of a chip that errs.
fn random(seed: u64) -> Vec<Named> {
    let mut rng = Rng::new(seed);
    let apart = play(&scene(Sort::Apart, seed));
    let cut = apart.cut(rng.below(apart.samples.len() as u64) as usize);
    let any = flaws();
    let flaw = rng.pick(&any);
    let erring = play(&super::Scene { flaw, ..scene(Sort::Apart, seed) });
    let named = |name: String, played: Played| Named { name, played };
    vec![
        named(format!("random-{seed}"), apart),
        named(format!("overlapping-{seed}"), play(&scene(Sort::Overlapping, seed))),
        named(format!("noisy-{seed}"), play(&scene(Sort::Noisy, seed))),
        named(format!("phased-{seed}"), play(&scene(Sort::Phased, seed))),
        named(format!("cut-{seed}"), cut),
        named(format!("glitched-{seed}"), glitched(seed)),
        named(format!("random-{seed}-{}", flaw.name()), erring),
    ]
}

/// A capture with glitches, of which nobody meant what it says: it is read list by list.
pub fn glitched(seed: u64) -> Played {
    let mut rng = Rng::new(seed);
    let played = play(&scene(Sort::Apart, seed));
    let glitches = rng.between(1, 20) as usize;
    reread(played.setting, &noise::glitched(&mut rng, &played.samples, glitches))
}

/// What is true of a capture, a line a thing: the setting, each event, READ and fault, and the first
/// READ that is wrong.
pub fn truth(played: &Played) -> String {
    let setting = played.setting;
    let mut text = format!(
        "address {:02X} part {} samples-per-tick {}\nchip {} phase {}\nsamples {}\n",
        setting.address,
        part(setting.kind).to_uppercase(),
        setting.samples_per_tick,
        played.flaw.name(),
        played.phase,
        played.samples.len()
    );
    let mut reads = played.reads.iter();
    for (sample, event) in &played.events {
        text += &format!("event {sample} {}\n", crate::trace::hex(event));
        if let (2, Some(read)) = (event[0], reads.as_slice().first()) {
            let verdict = match (read.is_wrong(), read.overtaken) {
                (true, _) => "wrong",
                (_, true) => "overtaken",
                _ => "right",
            };
            text += &format!(
                "read {sample} {} heard {:02X} expected {:02X} {verdict}\n",
                read.master, read.heard, read.expected
            );
            reads.next();
        }
    }
    for fault in &played.faults {
        text += &format!("fault {} {}\n", fault.sample, fault.bus);
    }
    match played.first_wrong() {
        Some(sample) => text + &format!("first-wrong {sample}\n"),
        None => text + "first-wrong none\n",
    }
}
