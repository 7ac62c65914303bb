//! `gunwaleish explain` as people call it: how wide its lines are, what it calls a bit, and its rows for
//! other programs.

mod common;
#[path = "common/rows.rs"]
mod rows;

use std::fs;

use common::{code, in_terminal, run, said, told, Folder};

use gunwaleish_tool::commands::explain::{explain, explain_as, explain_within, COLUMNS};
use gunwaleish_tool::each::Made;
use gunwaleish_tool::files::Input;
use gunwaleish_tool::story::follow;
use gunwaleish_tool::table::Form;
use gunwaleish_tool::wrap::{paragraph, wrapped};
use model::traces::trace;
use rows::{csv, json_lines, Read};

const IDLE: &str = "traces/box14-idle.trace";

#[test]
fn a_text_is_wrapped_at_its_spaces() {
    assert_eq!(wrapped("", 10), [""]);
    assert_eq!(wrapped("one two three", 7), ["one two", "three"]);
    assert_eq!(wrapped("one two three", 8), ["one two", "three"]);
    assert_eq!(wrapped("abcdefgh ij", 3), ["abc", "def", "gh", "ij"]);
    assert_eq!(paragraph("one two three four", 10), "one two\n    three\n    four\n");
    assert_eq!(paragraph("one two", 10), "one two\n");
}

/// The words of a text, in no order, since a column that goes on below stands between those of others.
fn words(text: &str) -> Vec<&str> {
    let mut words: Vec<&str> = text.split_whitespace().collect();
    words.sort();
    words
}

/// No line is longer than it may be, and however they are broken, the words are the same.
#[test]
fn lines_are_160_wide_at_most() {
    let mut long = 0;
    for seed in 0..40 {
        let input = Input { name: "a.trace".into(), bytes: trace(seed, 200) };
        let text = |made: Made| String::from_utf8(made.output.unwrap()).unwrap();
        let usual = text(explain(&input));
        let whole = text(explain_within(&input, 10_000));
        let widest = |text: &str| text.lines().map(|line| line.chars().count()).max().unwrap();
        assert!(widest(&usual) <= 160, "{}", widest(&usual));
        long += usize::from(widest(&usual) > 140 && widest(&whole) > 160);
        for width in [80, 119, 120, 250] {
            let other = text(explain_within(&input, width));
            assert!(widest(&other) <= width, "{} of {width}", widest(&other));
            assert_eq!(words(&other), words(&whole), "seed {seed}, {width}");
        }
        assert_eq!(words(&usual), words(&whole), "seed {seed}");
    }
    assert!(long > 10, "{long}");
}

/// On a terminal they are as wide as it is; the words are the same.
#[cfg(unix)]
#[test]
fn lines_are_as_wide_as_the_terminal() {
    let plain = told(&run(&["explain", IDLE]));
    for width in [80, 100, 130, 200] {
        let line = format!("stty cols {width}; $TOOL explain {IDLE}");
        let Some((code, shown)) = in_terminal(&line) else {
            return println!("skipped: script is not installed (it comes with util-linux)");
        };
        assert_eq!(code, 0, "{shown}");
        let widest = shown.lines().map(|line| line.chars().count()).max().unwrap();
        assert!(widest <= width && widest > width - 30, "{widest} of {width}: {shown}");
        assert_eq!(words(&shown), words(&plain), "{width}");
    }
    let (_, shown) = in_terminal(&format!("stty cols 40; $TOOL explain {IDLE}")).unwrap();
    assert!(shown.lines().all(|line| line.chars().count() <= 80), "{shown}");
    let (_, shown) = in_terminal(&format!("COLUMNS=90 $TOOL explain {IDLE}")).unwrap();
    assert!(shown.lines().all(|line| line.chars().count() <= 90), "{shown}");
}

/// The bit has the chip's name, which says the contrary of what it does.
#[test]
fn the_idle_timers_bit_is_told() {
    let text = told(&run(&["explain", IDLE]));
    let words = text.split_whitespace().collect::<Vec<_>>().join(" ");
    let bits = "(IDLE_TIMER_DIS (1 turns the idle timer on), BUS_CONNECT, LOCK_REQ)";
    assert!(words.contains(bits), "{text}");
}

/// A row an event, in both forms the same, and what the run has.
#[test]
fn rows_are_those_of_the_run() {
    for seed in 0..40 {
        let bytes = trace(seed, 120);
        let story = follow(&bytes).unwrap();
        let input = Input { name: "a, b.trace".into(), bytes };
        let text = |form| String::from_utf8(explain_as(&input, form).output.unwrap()).unwrap();
        let (lines, cells) = (json_lines(&text(Form::Json)), csv(&text(Form::Csv)));
        assert_eq!((lines.len(), cells.len()), (story.steps.len(), story.steps.len() + 1));
        assert_eq!(cells[0], COLUMNS);
        for ((line, row), step) in lines.iter().zip(&cells[1..]).zip(&story.steps) {
            assert_eq!(row.len(), COLUMNS.len());
            assert_eq!(line.at("trace").text(), "a, b.trace");
            assert_eq!(line.at("event").number(), step.number as u64);
            assert_eq!(line.at("tick").number(), step.tick as u64);
            assert_eq!(line.at("outcome").number(), u64::from(step.answer.outcome.number()));
            let owner = step.answer.owner.map_or(Read::Null, |m| Read::Number(m.number().into()));
            assert_eq!(line.at("owner"), &owner);
            let waits = ["waits0", "waits1"].map(|name| line.at(name) == &Read::Bool(true));
            assert_eq!(waits, step.scene.waits);
            for (column, cell) in COLUMNS.iter().zip(row) {
                let expected = match line.at(column) {
                    Read::Null => String::new(),
                    Read::Bool(flag) => flag.to_string(),
                    Read::Number(number) => number.to_string(),
                    Read::Text(text) => text.clone(),
                    other => panic!("{other:?}"),
                };
                assert_eq!(*cell, expected, "{column}");
            }
        }
    }
}

#[test]
fn rows_as_people_ask_for_them() {
    let folder = Folder::new("explain-rows");
    let both = run(&["explain", "traces/m1.trace", "--csv", "--json"]);
    assert_eq!(code(&both), 2);
    assert!(said(&both).contains("--csv and --json are both there"), "{}", said(&both));
    let to = folder.name();
    let many = run(&["explain", "traces/m1.trace", "traces/pair.trace", "--json", "-o", to]);
    assert_eq!((code(&many), folder.files()), (0, vec!["m1.json".into(), "pair.json".into()]));
    let first = fs::read_to_string(folder.path("m1.json")).unwrap();
    assert_eq!(first, told(&run(&["explain", "traces/m1.trace", "--json"])));
    assert_eq!(json_lines(&first).len(), 4);
    let refused = run(&["explain", "traces/refused-cut.trace", "--json"]);
    assert_eq!((code(&refused), told(&refused).as_str()), (1, ""));
}
