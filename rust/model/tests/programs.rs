//! What the programs `convert` and `report` have to write on the further inputs that `tools/programs`
//! runs them on: those that are stored in their folders `cases`, and the long ones that it makes.

use std::fs;
use std::path::{Path, PathBuf};

use model::converter::conversion;
use model::share_report;
use model::traces::{old_trace_of, trace_of};

/// A stored input by its name, and what is stored beside it.
struct Case {
    name: String,
    input: Vec<u8>,
    output: Vec<u8>,
}

fn folder(program: &str) -> PathBuf {
    Path::new(env!("CARGO_MANIFEST_DIR")).join("../../crates").join(program).join("cases")
}

fn case(program: &str, name: &str) -> Case {
    let file = |kind: &str| fs::read(folder(program).join(format!("{name}.{kind}"))).expect(name);
    Case { name: name.to_string(), input: file("stdin"), output: file("stdout") }
}

/// All cases of a program. Every file of its folder is of one of them.
fn cases(program: &str) -> Vec<Case> {
    let paths: Vec<PathBuf> =
        fs::read_dir(folder(program)).unwrap().map(|entry| entry.unwrap().path()).collect();
    let is_input = |path: &&PathBuf| path.extension().is_some_and(|kind| kind == "stdin");
    let names = paths.iter().filter(is_input).map(|path| path.file_stem().unwrap());
    let cases: Vec<Case> = names.map(|name| case(program, name.to_str().unwrap())).collect();
    assert_eq!(paths.len(), 2 * cases.len());
    cases
}

/// #105: "a small program writes an accepted old trace with 01 00 added, else M1's R line". Its buffer
/// has room for every trace, so that 9 is not among the refusals.
#[test]
fn convert_writes_what_is_stored() {
    let cases = cases("convert");
    for case in &cases {
        assert_eq!(case.output, conversion(&case.input), "{}", case.name);
    }
    for line in ["R5\n", "R6\n", "R7\n", "R8\n", "R10\n"] {
        assert!(cases.iter().any(|case| case.output == line.as_bytes()), "no {line}");
    }
    assert!(cases.iter().any(|case| case.output == [&case.input[..], &[1, 0]].concat()));
}

/// The longest old trace, one byte more, and more bytes than the program reads.
#[test]
fn convert_writes_of_long_inputs() {
    let events = [[6, 0, 0, 0]; 4096];
    let longest = old_trace_of([0; 4], &events);
    assert_eq!(longest[..7], [4, 0, 0, 0, 0, 0, 0x10]);
    assert_eq!(conversion(&longest), trace_of([0; 4], &events));
    for more in [1, 65_536] {
        assert_eq!(conversion(&[&longest[..], &vec![0; more]].concat()), b"R7\n");
    }
}

#[test]
fn report_writes_what_is_stored() {
    for case in cases("report") {
        assert_eq!(case.output, share_report(&case.input).into_bytes(), "{}", case.name);
    }
    let one = case("report", "one-trace");
    for name in ["cut-in-a-length", "cut-after-a-length", "cut-in-a-trace"] {
        let cut = case("report", name);
        assert!(cut.input.len() > one.input.len() && cut.input.starts_with(&one.input), "{name}");
        assert_eq!(cut.output, one.output, "{name}");
    }
}

/// A program that took the high byte first would find another length there, and write other figures.
#[test]
fn the_low_byte_of_a_length_is_told_from_the_high_one() {
    let Case { mut input, output, .. } = case("report", "length-low-byte-first");
    assert_eq!(usize::from(input[0]) + 256 * usize::from(input[1]), input.len() - 2);
    input.swap(0, 1);
    assert_eq!(share_report(&input), "0 0 0 0\n1 0 0 0\n");
    assert_ne!(output, share_report(&input).into_bytes());
}

/// "6 past 65,535 traces, refused ones included, totals kept": a length of 0 is a refused one.
#[test]
fn report_writes_of_many_traces() {
    let one = case("report", "one-trace");
    let report = |zeros: usize, rest: &[u8]| share_report(&[&vec![0; zeros], rest].concat());
    let none = "0 0 0 0\n1 0 0 0\n".to_string();
    let counted = String::from_utf8(one.output).unwrap();
    assert_eq!(report(131_070, &[]), none);
    assert_eq!(report(131_072, &[]), format!("{none}R6\n"));
    assert_eq!(report(131_071, &[]), format!("{none}R6\n"));
    assert_eq!(report(131_068, &one.input), counted);
    assert_eq!(report(131_068, &[&one.input[..], &one.input].concat()), format!("{counted}R6\n"));
    assert_eq!(report(131_070, &one.input), format!("{none}R6\n"));
}
