//! Both steppers are held to the independent model, so that their time is that of right answers.

use model::damage::{damage, ALL_DAMAGES};
use model::rng::Rng;
use model::straps::address_of;
use model::traces::{old_trace_of, seed_of, trace, trace_of};
use stepper::reading::{Kind, Report};
use stepper::{plain, tuned};

type RunTrace = fn(&[u8], &mut [u8]) -> Result<Report, u8>;

const BOTH: [(&str, RunTrace); 2] = [("plain", plain::run_trace), ("tuned", tuned::run_trace)];

fn assert_same(bytes: &[u8], room: usize) {
    let mut expected = vec![0xEE; room];
    let result = model::run_trace(bytes, &mut expected);
    let kind = match result.kind.number() {
        0 => Kind::Pca9641,
        _ => Kind::Tpt29641,
    };
    let said = match result.number {
        0 => Ok(Report {
            address: result.address,
            events: result.events,
            kind,
        }),
        number => Err(number),
    };
    for (name, run_trace) in BOTH {
        let mut answers = vec![0xEE; room];
        assert_eq!(run_trace(bytes, &mut answers), said, "{name}");
        let differing = (0..room).find(|&at| answers[at] != expected[at]);
        assert_eq!(
            differing, None,
            "{name}: answer byte, {} events",
            result.events
        );
    }
}

/// Of both kinds of part.
#[test]
fn random_traces() {
    for place in 0..600 {
        let seed = seed_of(21, place);
        let length = Rng::new(seed).pick(&[3, 40, 300, 900, 2500]);
        assert_same(&trace(seed, length), 4 * length + 5);
    }
}

#[test]
fn damaged_traces() {
    for seed in 0..300 {
        let mut rng = Rng::new(seed);
        let good = trace(seed, 1 + seed as usize % 20);
        for kind in ALL_DAMAGES {
            let refused = damage(&mut rng, &good, kind);
            assert_same(&refused.trace, refused.room);
        }
    }
}

#[test]
fn every_strapping() {
    for code in 0..=255u8 {
        let pins = [code >> 6, (code >> 4) & 3, (code >> 2) & 3, code & 3];
        assert_same(&trace_of(pins, &[]), 0);
        for (name, run_trace) in BOTH {
            let accepted = run_trace(&trace_of(pins, &[]), &mut []).is_ok();
            assert_eq!(accepted, address_of(pins).is_some(), "{name}");
        }
    }
}

/// Every third section of up to two bytes, and every third byte after a good one.
#[test]
fn every_third_section() {
    let two = (0..=65535u16).map(|section| section.to_le_bytes().to_vec());
    let one = (0..=255).map(|count| vec![count]);
    let three = (0..=255).flat_map(|after| [vec![1, 0, after], vec![1, 1, after]]);
    for section in one.chain(two).chain(three).chain([vec![]]) {
        let bytes = [old_trace_of([0; 4], &[[6, 0, 0, 0]]), section].concat();
        assert_same(&bytes, 4);
        assert_same(&bytes, 3);
    }
}
