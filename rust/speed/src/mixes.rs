//! The traces that are timed: full ones of 4,096 events each.

use std::fs;
use std::path::{Path, PathBuf};

use model::event::make::*;
use model::part::{Kind, BOTH_KINDS};
use model::phrases::Bytes;
use model::rng::Rng;
use model::straps::pins_of;
use model::trace::{read_trace, MOST_EVENTS};
use model::traces::{event_list_of, trace, trace_of_kind};

use crate::alike::kinds_alike;

pub struct Mix {
    pub name: &'static str,
    pub traces: Vec<Vec<u8>>,
}

/// So many traces of each mix. They are run one after the other in each timing. Every second one is of a
/// TPT29641; of the bench's three are, by their seeds.
const TRACES: u64 = 8;

/// The bytes before the events of a trace, those of an event and those after the events.
const HEAD: usize = 7;
const EVENT: usize = 4;
const END: usize = 2;
const TICK: u8 = 6;

/// All mixes. The error is why the samples cannot be read.
pub fn mixes() -> Result<[Mix; 5], String> {
    let samples = samples()?;
    Ok([
        Mix { name: "kinds alike", traces: (0..TRACES).map(|seed| alike(3000 + seed)).collect() },
        Mix {
            name: "no TICK",
            traces: (0..TRACES).map(|seed| without_ticks(4000 + seed)).collect(),
        },
        Mix {
            name: "bench",
            traces: (0..TRACES).map(|seed| trace(1000 + seed, MOST_EVENTS)).collect(),
        },
        Mix {
            name: "TICK-heavy",
            traces: (0..TRACES).map(|seed| tick_heavy(2000 + seed)).collect(),
        },
        Mix {
            name: "samples",
            traces: (0..TRACES).map(|place| of_samples(&samples, place as usize)).collect(),
        },
    ])
}

impl Mix {
    /// The events of a trace, four bytes each.
    pub fn events(trace: &[u8]) -> impl Iterator<Item = &[u8]> {
        trace[HEAD..trace.len() - END].chunks_exact(EVENT)
    }

    /// How many of a hundred events are a TICK.
    pub fn ticks(&self) -> f64 {
        let all = || self.traces.iter().flat_map(|trace| Mix::events(trace));
        100.0 * all().filter(|event| event[0] == TICK).count() as f64 / all().count() as f64
    }
}

/// Each of the ten kinds as often as the others.
fn alike(seed: u64) -> Vec<u8> {
    full(seed as usize, kinds_alike(kind_of(seed as usize), seed, MOST_EVENTS))
}

/// What the bench has, told on without its TICKs.
fn without_ticks(seed: u64) -> Vec<u8> {
    let mut events = vec![];
    let mut more = seed;
    while events.len() < MOST_EVENTS {
        let told = event_list_of(kind_of(seed as usize), more, MOST_EVENTS);
        events.extend(told.into_iter().filter(|event| event[0] != TICK));
        more += 100;
    }
    full(seed as usize, events)
}

/// Nine events of ten are a TICK. The rest take the bus for one master or the other with some
/// reserve, and move the lines.
fn tick_heavy(seed: u64) -> Vec<u8> {
    let mut rng = Rng::new(seed);
    let mut events = vec![];
    while events.len() < MOST_EVENTS {
        let m = rng.below(2) as u8;
        let phrase = match rng.below(4) {
            0 => vec![command(m, 3), write(m, rng.pick(&[0, 20, 50, 200])), stop(m)],
            1 => vec![command(m, 1), write(m, rng.pick(&[0x05, 0x05, 0x25, 0x85, 0x00])), stop(m)],
            2 => vec![lines(1, 0, 1), lines(1, 1, 1)],
            _ => vec![command(m, 2), read(m), stop(m)],
        };
        for event in phrase {
            events.push(event);
            events.extend(vec![tick(); rng.between(4, 14) as usize]);
        }
    }
    full(seed as usize, events)
}

/// The events of the samples one after the other, from this one on and around.
fn of_samples(samples: &[Vec<Bytes>], place: usize) -> Vec<u8> {
    let around = samples.iter().cycle().skip(place % samples.len());
    full(place, around.flatten().copied().take(MOST_EVENTS).collect())
}

fn kind_of(place: usize) -> Kind {
    BOTH_KINDS[place % 2]
}

fn full(place: usize, mut events: Vec<Bytes>) -> Vec<u8> {
    events.truncate(MOST_EVENTS);
    trace_of_kind(kind_of(place), pins_of(0x70).unwrap_or_default(), &events)
}

/// The events of the accepted traces of traces/, by name. Each begins with a RESET and the lines
/// high, so that it goes as it does from power-up.
fn samples() -> Result<Vec<Vec<Bytes>>, String> {
    let folder = Path::new(env!("CARGO_MANIFEST_DIR")).join("../../traces");
    let failed = |path: &Path, error| format!("{} cannot be read: {error}", path.display());
    let entries = fs::read_dir(&folder).map_err(|error| failed(&folder, error))?;
    let mut paths: Vec<PathBuf> = entries.flatten().map(|entry| entry.path()).collect();
    paths.retain(|path| path.extension().is_some_and(|ending| ending == "trace"));
    paths.sort();
    let mut samples = vec![];
    for path in paths {
        let bytes = fs::read(&path).map_err(|error| failed(&path, error))?;
        if let Ok(trace) = read_trace(&bytes) {
            samples.push([vec![lines(1, 1, 1), reset()], trace.events].concat());
        }
    }
    match samples.is_empty() {
        true => Err(format!("{} has no trace that is accepted", folder.display())),
        false => Ok(samples),
    }
}
