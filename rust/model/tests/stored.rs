//! The stored set: the files are those of the list, and it has every kind of trace.

use std::fs;
use std::path::{Path, PathBuf};

use model::happenings::Happenings;
use model::listing;
use model::part::BOTH_KINDS;
use model::read_trace;
use model::report::totals_of_input;
use model::stored::{input, output, stored_traces};
use model::stored_share::cases;

/// A file of the stored set.
fn file(name: &str) -> PathBuf {
    Path::new(env!("CARGO_MANIFEST_DIR")).join("../../crates/stored").join(name)
}

#[test]
fn stored_files_are_those_of_the_list() {
    assert!(fs::read(file("stdin")).unwrap() == input(), "run the bin stored");
    let text = fs::read_to_string(file("stdout")).unwrap();
    assert!(text == output(), "run the bin stored");
}

/// The stored set has good traces, and every refusal that a listing can have.
#[test]
fn stored_set_has_every_kind() {
    let texts: Vec<String> = stored_traces().iter().map(|trace| listing(trace)).collect();
    for refusal in ["R3\n", "R5\n", "R6\n", "R7\n", "R8\n", "R10\n"] {
        assert!(texts.iter().any(|text| text == refusal), "no {refusal}");
    }
    let good = texts.iter().filter(|text| !text.starts_with('R')).count();
    assert!(good > 100, "{good} good traces");
}

/// Its good traces are of either kind of part.
#[test]
fn stored_set_has_both_parts() {
    let read = || stored_traces().into_iter().filter_map(|trace| read_trace(&trace).ok());
    for kind in BOTH_KINDS {
        let count = read().filter(|trace| trace.kind == kind).count();
        assert!(count > 40, "{count} of {kind:?}");
    }
}

/// Its long traces come to a hung bus by either line, and to a clock that runs too long for one.
#[test]
fn stored_set_hangs_the_bus() {
    let mut happenings = Happenings::default();
    for trace in stored_traces().iter().filter_map(|trace| read_trace(trace).ok()) {
        happenings.run(trace.kind, &trace.events);
    }
    let kinds = ["hung by SCL", "hung by SDA", "SDA low for 501 ticks, not hung: the clock runs"];
    for kind in kinds {
        assert!(happenings.count(kind) > 0, "no {kind}");
    }
}

/// The inputs of the bus share report have shares for both controllers, every refusal, and ends of
/// every kind.
#[test]
fn stored_shares_have_every_kind() {
    let case = |name: &str| cases().into_iter().find(|case| case.name == name).expect(name);
    for name in ["accepted", "mixed"] {
        let (totals, past) = totals_of_input(&case(name).input);
        assert!(totals.numbers()[..11].iter().all(|number| *number > 0), "{totals:?}");
        assert!(!past);
    }
    for name in ["refused", "mixed"] {
        let (totals, _) = totals_of_input(&case(name).input);
        assert!(totals.refused.iter().all(|count| *count > 0), "{totals:?}");
    }
    let accepted = case("accepted").output();
    for name in ["cut-in-a-trace", "cut-after-a-length", "cut-in-a-length"] {
        assert_eq!(case(name).output(), accepted);
        assert_eq!(totals_of_input(&case(name).input).0.refused, [0, 1, 0, 0, 0, 0]);
    }
    for name in ["empty", "length-of-0", "refused"] {
        assert_eq!(case(name).output(), "0 0 0 0\n1 0 0 0\n");
    }
    let (long, _) = totals_of_input(&case("long").input);
    assert_eq!((long.traces, long.refused), (3, [0, 0, 0, 1, 0, 0]));
    let most = case("most").output();
    for name in ["past", "past-and-cut", "past-in-a-length"] {
        assert_eq!(case(name).output(), format!("{most}R6\n"));
    }
}
