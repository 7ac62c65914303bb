//! `watch` as people call it: exit codes, what is said, files in every form and such that grow, the samples
//! and the page.

mod common;
#[path = "common/rows.rs"]
mod rows;

use std::fs::{self, OpenOptions};
use std::io::Write;
use std::process::{Command, Stdio};
use std::thread;
use std::time::Duration;

use common::{code, in_terminal, root, run, said, shell, text, told, Folder, BUILT, TOOL};

use gunwaleish_tool::watch::rows::COLUMNS;
use model::wire::formats::{csv, vcd};
use model::wire::play::play;
use model::wire::stories::stories;
use model::wire::{Flaw, Played};
use model::Kind;

const RIGHT: &str = "traces/take-over.capture";
const ERRING: &str = "traces/take-over-early.vcd";
const AS_FITTED: [&str; 5] = ["--address", "71", "--part", "PCA9641", "--below"];
const RATE: [&str; 2] = ["--samplerate", "400k"];

fn watch(file: &str, more: &[&str]) -> std::process::Output {
    run(&[&["watch", file], &AS_FITTED[..], &RATE[..], more].concat())
}

fn take_over(flaw: Flaw) -> Played {
    let story = stories().into_iter().find(|story| story.name == "take-over").unwrap();
    play(&story.scene(Kind::Pca9641, flaw, 0))
}

/// The samples are what the generator plays: a right chip, and one whose reserves end a tick early.
#[test]
fn the_samples_are_as_they_are_played() {
    assert!(fs::read(root().join(RIGHT)).unwrap() == take_over(Flaw::None).samples);
    let erring = take_over(Flaw::ReserveShort);
    assert!(text(ERRING) == vcd(&erring.samples, 7, erring.setting.samples_per_tick));
    for file in [RIGHT, ERRING] {
        assert!(fs::metadata(root().join(file)).unwrap().len() < 64 * 1024, "{file}");
    }
}

#[test]
fn right_is_0_and_wrong_is_1() {
    let right = watch(RIGHT, &[]);
    assert_eq!((code(&right), said(&right).as_str()), (0, ""));
    let text = told(&right);
    assert!(text.contains("\nNo difference: the chip answered as the model\n"), "{text}");
    assert!(text.starts_with(&format!("{RIGHT}: ")) && text.lines().count() == 6, "{text}");
    let erring = watch(ERRING, &[]);
    assert_eq!((code(&erring), said(&erring).as_str()), (1, ""));
    let played = take_over(Flaw::ReserveShort);
    let wrong = played.reads.iter().filter(|read| read.is_wrong()).count();
    let text = told(&erring);
    assert!(text.contains(&format!("\n{wrong} differences; the first at ")), "{text}");
    let sample = format!("sample {}: controller ", played.first_wrong().unwrap());
    assert!(text.lines().next().unwrap().contains(&sample), "{text}");
    // Both: the second is still told, and the worst code counts.
    let both = run(&[&["watch", ERRING, RIGHT], &AS_FITTED[..], &RATE[..]].concat());
    assert_eq!((code(&both), told(&both)), (1, told(&erring) + &told(&right)));
    let missing = run(&[&["watch", RIGHT, "traces/none"], &AS_FITTED[..], &RATE[..]].concat());
    assert_eq!((code(&missing), told(&missing)), (2, told(&right)));
    assert!(said(&missing).contains("traces/none cannot be read: "));
}

/// Nothing is known of a chip that nobody reads from.
#[test]
fn without_a_read_it_is_1() {
    let other =
        run(&[&["watch", RIGHT, "--address", "70", "--part", "PCA9641"], &RATE[..]].concat());
    assert_eq!(code(&other), 1);
    let none =
        " events, none of them a READ\nNo READ of 70h was heard, so nothing is known of the chip; ";
    assert!(told(&other).contains(none), "{}", told(&other));
}

/// What stands after the command, and what is said of it. The first two name no device or no part.
const WRONG: [(&[&str], &str); 12] = [
    (&[RIGHT], "watch needs the device: --address, or --pins; gunwaleish watch --help"),
    (
        &[RIGHT, "--address", "71"],
        "watch needs the part: --part PCA9641 or --part TPT29641; a kind",
    ),
    (
        &[RIGHT, "--samplerate", "fast"],
        "'fast' is no rate, expected one such as 1M or 500k; gunwaleish",
    ),
    (&[RIGHT, "--samplerate", "32768"], "at 32768 Hz a millisecond is no whole number of samples"),
    (&[RIGHT], "does not say how many samples a second there are, and a TICK is a millisecond"),
    (&[RIGHT, "--samplerate", "1M", "--channels", "a,b,c,d"], "has one byte a sample and no names"),
    (&[RIGHT, "--channels", "a"], "--channels needs the names of SCL0, SDA0, SCL1, SDA1"),
    (&[RIGHT, "--follow", "x"], "'x' is no number of seconds; gunwaleish watch --help"),
    (
        &[RIGHT, "--sheets", "sheets/board.sheet"],
        "--sheets needs the names of the board sheet and the",
    ),
    (&[RIGHT, "--csv", "--json"], "--csv and --json are both there; gunwaleish watch --help"),
    (
        &[RIGHT, "-o", "x"],
        "watch writes no file: what it tells goes to standard output; gunwaleish",
    ),
    (&["traces/none", "--samplerate", "1M"], "traces/none cannot be read: "),
];

#[test]
fn wrong_use_is_2() {
    for (place, (words, expected)) in WRONG.into_iter().enumerate() {
        let device: &[&str] = if place < 2 { &[] } else { &AS_FITTED };
        let output = run(&[&["watch"], device, words].concat());
        assert_eq!(
            (code(&output), told(&output).as_str()),
            (2, ""),
            "{words:?}: {}",
            said(&output)
        );
        assert!(said(&output).contains(expected), "{words:?}: {}", said(&output));
    }
    let empty = watch(RIGHT, &["--sheets", "sheets/board-box14.sheet", "sheets/house.sheet"]);
    assert_eq!(code(&empty), 1, "{}", said(&empty));
    assert!(
        said(&empty).contains("a box is empty on both, so they promise nothing; gunwaleish sheet")
    );
}

/// Every form, a session by way of sigrok-cli where it is installed, and standard input.
#[test]
fn all_forms_say_the_same() {
    let folder = Folder::new("watch-forms");
    let played = take_over(Flaw::ReserveShort);
    let (samples, of_tick) = (&played.samples, played.setting.samples_per_tick);
    let expected = told(&watch(ERRING, &[])).replace(ERRING, "NAME");
    let raw = folder.path("a.capture");
    fs::write(&raw, samples).unwrap();
    fs::write(folder.path("a.vcd"), vcd(samples, 7, of_tick)).unwrap();
    fs::write(folder.path("a.csv"), csv(samples, &[0, 6, 1, 5, 2, 4, 3])).unwrap();
    for name in ["a.capture", "a.vcd", "a.csv"] {
        let path = folder.path(name);
        let output = watch(&path, &[]);
        assert_eq!(
            (code(&output), told(&output).replace(&path, "NAME")),
            (1, expected.clone()),
            "{name}"
        );
    }
    // Text has the names of the bus below, and needs no --below.
    let named = run(&[&["watch", &folder.path("a.csv")], &AS_FITTED[..4], &RATE[..]].concat());
    assert_eq!(told(&named).replace(&folder.path("a.csv"), "NAME"), expected);
    let words = [&AS_FITTED[..], &RATE[..]].concat().join(" ");
    let piped = shell(&format!("cat {raw} | {BUILT} watch {words}"));
    assert_eq!(
        (code(&piped), told(&piped).replace("standard input", "NAME")),
        (1, expected.clone())
    );
    sessions_say_the_same(&folder, &raw, of_tick, &expected);
}

/// The same of a session of these samples, and of what sigrok-cli writes of them.
fn sessions_say_the_same(folder: &Folder, raw: &str, of_tick: u64, expected: &str) {
    let session = folder.path("a.sr");
    let format = format!("binary:numchannels=8:samplerate={}", 1000 * of_tick);
    let made = Command::new("sigrok-cli").args(["-I", &format, "-i", raw, "-o", &session]).output();
    if made.is_err() {
        return println!("skipped: sigrok-cli is not installed");
    }
    // The channels have numbers, and the rate is in the session.
    let channels = ["--channels", "0,1,2,3,4,5,6"];
    let output = run(&[&["watch", &session], &AS_FITTED[..4], &channels[..]].concat());
    assert_eq!((code(&output), told(&output).replace(&session, "NAME")), (1, expected.to_string()));
    let line = format!(
        "sigrok-cli -I {format} -i {raw} -O binary | {BUILT} watch {}",
        AS_FITTED.join(" ")
    );
    let piped = shell(&line);
    assert_eq!(
        (code(&piped), told(&piped).replace("standard input", "NAME")),
        (1, expected.to_string())
    );
}

#[test]
fn waits_above_the_promise() {
    let sheets = ["--sheets", "sheets/board.sheet", "sheets/house.sheet"];
    let output = watch(RIGHT, &sheets);
    assert_eq!(code(&output), 0, "{}{}", said(&output), told(&output));
    assert!(told(&output).contains("; the sheets promise "), "{}", told(&output));
}

/// Each thing that is told as a row; the summary stands on standard error.
#[test]
fn rows_for_other_programs() {
    let lines = told(&watch(ERRING, &["--resync"]));
    let lines: Vec<&str> = lines
        .lines()
        .filter(|line| line.contains(": controller ") || line.contains(": taken "))
        .collect();
    let output = watch(ERRING, &["--resync", "--csv"]);
    assert_eq!(code(&output), 1);
    let table = rows::csv(&told(&output));
    assert_eq!(table[0], COLUMNS);
    assert_eq!(rows::column(&table, "said").len() + 1, lines.len());
    for (row, line) in rows::column(&table, "said").iter().zip(&lines) {
        assert!(line.ends_with(&format!(": {row}")), "{line}: {row}");
    }
    assert!(said(&output).contains("differences; the first at "), "{}", said(&output));
    let json = watch(ERRING, &["--resync", "--json"]);
    let first = &rows::json_lines(&told(&json))[0];
    assert_eq!(first.at("what").text(), "difference");
    assert_eq!(first.at("microseconds").number(), first.at("sample").number() * 5 / 2);
    assert_eq!((first.at("capture").text(), first.at("controller").number()), (ERRING, 0));
}

/// A file that grows is read on, until nothing more came for a while.
#[test]
fn a_file_that_grows() {
    let folder = Folder::new("watch-grows");
    let played = take_over(Flaw::ReserveShort);
    let path = folder.path("a.capture");
    let (first, second) = played.samples.split_at(played.samples.len() / 3);
    fs::write(&path, first).unwrap();
    let words = [&["watch", &path, "--follow", "2"], &AS_FITTED[..], &RATE[..]].concat();
    let child = Command::new(TOOL).args(&words).stdout(Stdio::piped()).spawn().unwrap();
    for piece in second.chunks(1500) {
        thread::sleep(Duration::from_millis(20));
        OpenOptions::new().append(true).open(&path).unwrap().write_all(piece).unwrap();
    }
    let output = child.wait_with_output().unwrap();
    let expected = told(&watch(ERRING, &[])).replace(ERRING, &path);
    assert_eq!((code(&output), told(&output)), (1, expected));
}

/// On a terminal the line goes on; a closed pipe is no failure.
#[test]
fn on_a_terminal() {
    let line = [&["$TOOL", "watch", RIGHT], &AS_FITTED[..], &RATE[..]].concat().join(" ");
    let Some((code, shown)) = in_terminal(&line) else {
        return println!("skipped: script is not installed");
    };
    assert_eq!(code, 0);
    assert!(shown.contains(" owns  waited ms: 0: ") && shown.contains("0 differences"), "{shown}");
    let words = [&AS_FITTED[..], &RATE[..]].concat().join(" ");
    let closed = shell(&format!("{BUILT} watch {ERRING} {words} | head -1"));
    assert_eq!(told(&closed).lines().count(), 1);
    assert_eq!(said(&closed), "");
}

/// What the pages show of watched captures, word for word.
#[test]
fn the_pages_say_what_comes() {
    let page = text("docs/CAPTURES.md");
    let mut shown = 0;
    for part in page.split(&format!("\n    {BUILT} watch ")).skip(1) {
        let Some((line, rest)) = part.split_once("\n\n```\n") else { continue };
        if line.contains('\n') {
            continue;
        }
        let (expected, _) = rest.split_once("```\n").unwrap();
        let output = shell(&format!("{{ {BUILT} watch {line}; }} 2>&1"));
        assert_eq!(told(&output), expected, "{line}");
        shown += 1;
    }
    assert!(shown >= 3, "{shown}");
}
