//! `run`: folders of traces on all cores.

mod common;
#[path = "common/rows.rs"]
mod rows;

use std::fs;
use std::path::PathBuf;
use std::process::Output;
use std::time::Duration;

use common::{root, run, shell, Folder, BUILT};

use gunwaleish_tool::commands::run::closing;
use gunwaleish_tool::many::{run_all, Tally};
use model::damage::{damage, ALL_DAMAGES};
use model::rng::Rng;
use model::traces::{seed_of, trace};

/// Exit code, what was printed but for the rate, and what was complained.
fn told(output: &Output) -> (i32, String, String) {
    let text = String::from_utf8(output.stdout.clone()).unwrap();
    let said = String::from_utf8(output.stderr.clone()).unwrap();
    let line = match text.rsplit_once("; ") {
        Some((front, rate)) => {
            let number = rate.strip_suffix(" events a second\n").unwrap_or("none");
            assert!(number.parse::<u64>().is_ok(), "{rate}");
            front.to_string()
        }
        None => text,
    };
    (output.status.code().unwrap(), line, said)
}

#[test]
fn the_samples() {
    let (code, line, said) = told(&run(&["run", "traces"]));
    assert_eq!((code, said.lines().count()), (1, 3), "{said}");
    assert!(said.contains("gunwaleish: traces/refused-cut.trace: refusal 5: "), "{said}");
    let accepted = |path: &PathBuf| gunwaleish::run(&fs::read(path).unwrap()).ok();
    let paths = fs::read_dir(root().join("traces")).unwrap().map(|entry| entry.unwrap().path());
    let traces: Vec<PathBuf> =
        paths.filter(|path| path.extension().is_some_and(|e| e == "trace")).collect();
    let events: usize = traces.iter().filter_map(accepted).map(|run| run.events.len()).sum();
    let expected =
        format!("{} traces, {events} events; 2 refused (1 with 5, 1 with 8)", traces.len());
    assert_eq!(line, expected);
}

#[test]
fn named_traces_and_no_refusal() {
    let two = run(&["run", "traces/m1.trace", "traces/m1.trace"]);
    assert_eq!(told(&two), (0, "2 traces, 8 events; none refused".into(), String::new()));
    let one = run(&["run", "traces/m1.trace"]);
    assert_eq!(told(&one), (0, "1 trace, 4 events; none refused".into(), String::new()));
}

#[test]
fn wrong_use_and_what_cannot_be_read() {
    let cases: [(&[&str], &str); 4] = [
        (&["run"], "run needs a folder of traces"),
        (&["run", "-", "-"], "standard input is there twice"),
        (&["run", "traces", "-o", "out"], "run writes no file, so there is no -o"),
        (&["run", "traces", "--csv", "--json"], "--csv and --json are both there"),
    ];
    for (arguments, expected) in cases {
        let (code, line, said) = told(&run(arguments));
        assert_eq!((code, line.as_str()), (2, ""), "{arguments:?}");
        assert!(said.contains(expected), "{said}");
    }
    let (code, line, said) = told(&run(&["run", "traces/m1.trace", "no-such.trace"]));
    assert_eq!((code, line.as_str()), (2, "1 trace, 4 events; none refused"));
    assert!(said.starts_with("gunwaleish: no-such.trace cannot be read: "), "{said}");
}

/// Folders inside, and `.trace` in any letters, as `share` finds them; what is skipped is told, and a folder
/// without a trace is no success.
#[test]
fn folders_inside_are_run_too() {
    let folder = Folder::new("deep");
    fs::create_dir_all(folder.0.join("a/b")).unwrap();
    let m1 = fs::read(root().join("traces/m1.trace")).unwrap();
    fs::write(folder.0.join("a/b/one.TRACE"), &m1).unwrap();
    fs::write(folder.0.join("two.trace"), &m1).unwrap();
    fs::write(folder.0.join("a/notes.txt"), "").unwrap();
    let found = format!(
        "gunwaleish: {}: 2 traces; skipped: 1 file that does not end in .trace\n",
        folder.name()
    );
    let ran = run(&["run", folder.name()]);
    assert_eq!(told(&ran), (0, "2 traces, 8 events; none refused".into(), found.clone()));
    let counted = run(&["share", folder.name()]);
    assert_eq!(String::from_utf8(counted.stderr).unwrap(), found);
    let empty = Folder::new("empty");
    fs::write(empty.0.join("m1.listing"), "70 0000\n").unwrap();
    let (code, line, said) = told(&run(&["run", empty.name()]));
    assert_eq!((code, line.as_str()), (1, "0 traces, 0 events; none refused"));
    assert!(said.ends_with(": no trace; skipped: 1 file that does not end in .trace\n"), "{said}");
    let (code, line, _) = told(&run(&["run", folder.name(), empty.name()]));
    assert_eq!((code, line.as_str()), (1, "2 traces, 8 events; none refused"));
}

/// `-` is one trace, as everywhere.
#[test]
fn standard_input_is_one_trace() {
    let one = shell(&format!("{BUILT} run - < traces/m1.trace"));
    assert_eq!(told(&one), (0, "1 trace, 4 events; none refused".into(), String::new()));
    let stream = shell(&format!("{BUILT} run - < crates/report/stdin"));
    let (code, _, said) = told(&stream);
    assert_eq!(code, 1);
    assert!(said.ends_with("looks like a stream of traces: gunwaleish share --stream counts it\n"));
}

/// A row a trace, in the order of the names: as CSV, and as lines of JSON that may be put behind each
/// other. The line of all stands on standard error.
#[test]
fn a_row_a_trace() {
    let paths =
        ["traces/m1.trace", "traces/refused-cut.trace", "no-such.trace", "traces/burst.trace"];
    let csv = run(&[&["run", "--csv"], &paths[..]].concat());
    assert_eq!(csv.status.code(), Some(2));
    let said = String::from_utf8(csv.stderr).unwrap();
    assert!(said.lines().last().unwrap().starts_with("gunwaleish: 3 traces, "), "{said}");
    let table = rows::csv(&String::from_utf8(csv.stdout).unwrap());
    assert_eq!(rows::column(&table, "trace"), paths);
    assert_eq!(rows::column(&table, "result"), ["ran", "refused", "unread", "ran"]);
    assert_eq!(rows::column(&table, "refusal"), ["", "5", "", ""]);
    let why = rows::column(&table, "why");
    assert!(why[1].contains("refusal 5: cut: ") && why[2].contains("cannot be read: "), "{why:?}");
    let lines = |paths: &[&str]| {
        let output = run(&[&["run", "--json"], paths].concat());
        String::from_utf8(output.stdout).unwrap()
    };
    let whole = lines(&paths);
    assert_eq!(whole, lines(&paths[..2]) + &lines(&paths[2..]));
    let values = rows::json_lines(&whole);
    for (value, path) in values.iter().zip(paths) {
        assert_eq!(value.at("trace").text(), path);
    }
    let burst = gunwaleish::run(&fs::read(root().join(paths[3])).unwrap()).unwrap();
    let refused = burst.answers.iter().filter(|answer| answer.outcome.is_refused()).count();
    let numbers = ["events", "refused_events"].map(|name| values[3].at(name).number());
    assert_eq!(numbers, [burst.events.len() as u64, refused as u64]);
    let names = ["address", "part"].map(|name| values[3].at(name).text().to_string());
    assert_eq!(names, [format!("{:02X}", burst.address), burst.part.to_string()]);
    assert_eq!(*values[1].at("events"), rows::Read::Null);
}

/// More traces than are written at a time keep their order.
#[test]
fn rows_keep_their_order() {
    let names: Vec<String> =
        (0..9000).map(|place| format!("traces/{:02}.none", place % 100)).collect();
    let names: Vec<&str> = names.iter().map(String::as_str).collect();
    let output = run(&[&["run", "--csv"], &names[..]].concat());
    let table = rows::csv(&String::from_utf8(output.stdout).unwrap());
    assert_eq!(rows::column(&table, "trace"), names);
}

/// Good and damaged traces, on one thread and on more than there are traces: each time the tally is
/// the model's.
#[test]
fn the_tally_is_the_models_on_any_number_of_threads() {
    let folder = Folder::new("tally");
    let mut expected = Tally::default();
    let mut paths = vec![];
    for place in 0..40 {
        let seed = seed_of(33, place);
        let mut bytes = trace(seed, 1 + seed as usize % 50);
        if place % 4 == 0 {
            let kind = ALL_DAMAGES[place as usize / 4 % ALL_DAMAGES.len()];
            bytes = damage(&mut Rng::new(seed), &bytes, kind).trace;
        }
        let result = model::run_trace(&bytes, &mut [0; 4 * 4096]);
        expected.traces += 1;
        expected.events += result.events as u64;
        if result.number != 0 {
            *expected.refused.entry(result.number).or_default() += 1;
        }
        paths.push(folder.0.join(format!("{place:02}.trace")));
        fs::write(&paths[place as usize], bytes).unwrap();
    }
    assert!(expected.refused.len() > 2);
    for threads in [0, 1, 2, 7, 100] {
        let mut tally = run_all(&paths, threads, true, |_| ());
        let rows = std::mem::take(&mut tally.rows);
        assert!(rows.iter().map(|(place, _)| *place).eq(0..paths.len()));
        let places: Vec<usize> = tally.failures.iter().map(|(place, _)| *place).collect();
        assert!(places.is_sorted() && places.len() == expected.refused.values().sum());
        tally.failures.clear();
        assert_eq!(tally, expected, "{threads} threads");
    }
    assert_eq!(run_all(&[], 2, false, |_| ()), Tally::default());
}

#[test]
fn the_rate() {
    let tally = Tally { traces: 3, events: 3000, ..Tally::default() };
    let line = closing(&tally, Duration::from_millis(2));
    assert_eq!(line, "3 traces, 3000 events; none refused; 1500000 events a second\n");
}
