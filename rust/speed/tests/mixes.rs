//! The timed traces are full and accepted, of both parts, and of the kind they are named for.

use model::run_trace;
use speed::mixes::{mixes, Mix};

const ROOM: usize = 4 * 4096;

fn events(trace: &[u8]) -> Vec<&[u8]> {
    Mix::events(trace).collect()
}

/// How many of the events have this kind.
fn of_kind(trace: &[u8], kind: u8) -> usize {
    events(trace).iter().filter(|event| event[0] == kind).count()
}

#[test]
fn full_and_accepted_and_of_both_parts() {
    for mix in mixes().unwrap() {
        for kind in [0, 1] {
            assert!(mix.traces.iter().any(|bytes| bytes.last() == Some(&kind)), "{}", mix.name);
        }
        for trace in &mix.traces {
            let result = run_trace(trace, &mut [0; ROOM]);
            assert_eq!((result.number, result.events), (0, 4096), "{}", mix.name);
        }
    }
}

#[test]
fn the_kinds_are_alike_and_most_in_sequence() {
    let [alike, ..] = mixes().unwrap();
    for trace in &alike.traces {
        for kind in 0..10 {
            let count = of_kind(trace, kind);
            assert!((405..=415).contains(&count), "{count} of kind {kind}");
        }
        let mut answers = [0; ROOM];
        run_trace(trace, &mut answers);
        let taken = answers.chunks_exact(4).filter(|answer| answer[0] < 2).count();
        assert!(taken > 4096 * 3 / 4, "{taken} taken");
    }
}

#[test]
fn no_tick_has_none() {
    let [_, none, ..] = mixes().unwrap();
    assert!(none.traces.iter().all(|trace| of_kind(trace, 6) == 0));
    assert_eq!(none.ticks(), 0.0);
}

/// The page says so.
#[test]
fn three_quarters_of_the_bench_are_ticks() {
    let [_, _, bench, ..] = mixes().unwrap();
    assert!((73.0..75.0).contains(&bench.ticks()), "{}", bench.ticks());
}

#[test]
fn the_tick_heavy_ones_are_nine_tenths_tick() {
    let [_, _, _, heavy, _] = mixes().unwrap();
    for trace in &heavy.traces {
        let ticks = of_kind(trace, 6);
        assert!((3500..3900).contains(&ticks), "{ticks} ticks");
    }
}

/// Every sample is in the mix whole, and nothing in it is refused but what a sample has refused.
#[test]
fn the_samples_are_whole() {
    let [_, _, _, _, mix] = mixes().unwrap();
    let all = mix.traces.iter().flat_map(|trace| events(trace)).collect::<Vec<_>>().concat();
    for sample in ["m1", "box14-rt00", "hung-bus", "mail", "pair", "burst"] {
        let path = format!("{}/../../traces/{sample}.trace", env!("CARGO_MANIFEST_DIR"));
        let trace = std::fs::read(path).unwrap();
        let wanted = events(&trace).concat();
        assert!(all.windows(wanted.len()).any(|part| part == wanted), "{sample}");
    }
    for trace in &mix.traces {
        let mut answers = [0; ROOM];
        run_trace(trace, &mut answers);
        assert!(answers.chunks_exact(4).all(|answer| answer[0] < 2));
    }
}
