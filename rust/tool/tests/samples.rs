//! The sample traces: each has its script and its listing beside it, and the pictures are of them.

use std::collections::BTreeSet;
use std::fs;
use std::path::{Path, PathBuf};

use gunwaleish_tool::commands::{compose, decompose, explain, list, picture};
use gunwaleish_tool::each::Made;
use gunwaleish_tool::files::Input;

/// A file of the repository.
fn file(path: &str) -> PathBuf {
    Path::new(env!("CARGO_MANIFEST_DIR")).join("../..").join(path)
}

fn input(path: &str) -> Input {
    Input { name: path.to_string(), bytes: fs::read(file(path)).unwrap() }
}

fn output(made: Made) -> Vec<u8> {
    assert_eq!(made.refused, None);
    made.output.unwrap()
}

/// The files of `traces/` with this ending, without it.
fn names(ending: &str) -> BTreeSet<String> {
    let entries = fs::read_dir(file("traces")).unwrap();
    let paths = entries.map(|entry| entry.unwrap().path());
    let with_ending = paths.filter(|path| path.extension().is_some_and(|found| found == ending));
    with_ending.map(|path| path.file_stem().unwrap().to_str().unwrap().to_string()).collect()
}

#[test]
fn each_script_gives_its_trace() {
    for name in names("script") {
        let trace = output(compose::compose(&input(&format!("traces/{name}.script"))));
        assert!(
            trace == input(&format!("traces/{name}.trace")).bytes,
            "{name}: gunwaleish compose traces/{name}.script -o traces/{name}.trace"
        );
    }
}

/// The two that are refused come out of others, since no script gives a refused trace.
#[test]
fn refused_samples_come_out_of_others() {
    let m1 = input("traces/m1.trace").bytes;
    assert_eq!(input("traces/refused-cut.trace").bytes, m1[..24]);
    let script =
        Input { name: String::new(), bytes: b"pins 0 0 0 0\npart PCA9641\ntick\n".to_vec() };
    let mut strap = output(compose::compose(&script));
    strap[1] = 1;
    assert_eq!(input("traces/refused-strap.trace").bytes, strap);
    let refused = ["refused-cut", "refused-strap"].map(String::from);
    let composed: BTreeSet<String> = names("script").into_iter().chain(refused).collect();
    assert_eq!(names("trace"), composed);
}

#[test]
fn each_listing_is_the_models_and_the_tools() {
    assert_eq!(names("trace"), names("listing"));
    let readme = String::from_utf8(input("traces/README.md").bytes).unwrap();
    for name in names("trace") {
        let trace = input(&format!("traces/{name}.trace"));
        let text = input(&format!("traces/{name}.listing")).bytes;
        assert!(text == model::listing(&trace.bytes).as_bytes(), "{name}.listing");
        assert!(list::list(&trace).output.unwrap() == text, "{name}");
        assert!(readme.contains(&format!("| `{name}.trace` | ")), "traces/README.md: {name}");
    }
}

#[test]
fn composing_what_was_decomposed_gives_the_sample_again() {
    for name in names("script") {
        let trace = input(&format!("traces/{name}.trace"));
        let script = output(decompose::decompose(&trace));
        let again = compose::compose(&Input { name: name.clone(), bytes: script });
        assert!(output(again) == trace.bytes, "{name}");
    }
}

/// Box 14 in words: never granted with RT 00h, and granted at the 50th tick with RT 50.
#[test]
fn box_14_is_told_in_words() {
    let empty = told("box14-rt00");
    let [verdict, last] = *empty.lines().collect::<Vec<_>>().last_chunk().unwrap();
    assert!(
        verdict.starts_with("controller 1 waited 300 ticks and was never granted"),
        "{verdict}"
    );
    assert!(verdict.contains("RT 00h, which holds until let go"), "{verdict}");
    assert!(
        last.starts_with("Waiting does not help controller 1: controller 0 has RT 00h "),
        "{last}"
    );
    assert!(last.contains("Its own way out is GENERAL CALL 06h, then RT and CONTR anew"), "{last}");
    assert!(empty.contains("ticks 1 to 300: nothing changes"));
    let filled = told("box14-rt50");
    assert!(
        filled.contains("longest wait 49 ticks from event 13, then granted at event 64, tick 50")
    );
    assert!(filled.contains(
        "controller 0 loses the bus; controller 1 claims the bus: it alone asks; controller 1 is \
         granted the bus"
    ));
    assert!(!filled.contains("never granted"));
}

/// The way back: the word is read before the reset, the bus is taken with a reserve, and controller 0,
/// which comes back at tick 310, is in 40 ticks later. Both lines tell of that tick.
#[test]
fn the_way_back_is_told_in_words() {
    let told = told("recovery");
    let places = [
        "1 READ D9h from STATUS ",
        "1 READ 34h from mailbox low",
        "1 READ 12h from mailbox high",
        "1 GENERAL CALL 06h (soft reset)",
        "controller 1 is granted the bus with RT 32h, which holds for 50 ticks",
        "310  0 STOP ",
        "350  TICK ",
        "controller 1 loses the bus; controller 0 claims the bus: it alone asks; controller 0 is granted",
        "INT0 is asserted; INT1 is asserted",
        "0 READ 04h from INT_STATUS ",
    ];
    let places = places.map(|words| told.find(words).unwrap_or_else(|| panic!("{words}: {told}")));
    assert!(places.is_sorted(), "{places:?}");
    assert!(told.contains("waited 300; 1 grant taken, 1 lost"), "{told}");
    assert!(!told.contains("aiting "), "nobody waits at the end");
}

/// The words of a sample's run. What goes on below, since it is too long for a line, is put behind it.
fn told(name: &str) -> String {
    let made = explain::explain(&input(&format!("traces/{name}.trace")));
    let text = String::from_utf8(output(made)).unwrap();
    let (events, totals) = text.split_once("\nIn all: ").unwrap();
    let mut lines: Vec<String> = vec![];
    for line in events.lines() {
        // No column but the last goes on below in the samples.
        match (line.starts_with(&" ".repeat(40)), lines.last_mut()) {
            (true, Some(last)) => *last += &format!(" {}", line.trim_start()),
            _ => lines.push(line.to_string()),
        }
    }
    format!("{}\nIn all: {}", lines.join("\n"), totals.replace("\n    ", " "))
}

/// The same events on either part: the samples differ in the last byte, and the parts as they should.
#[test]
fn the_second_source_differs_in_two_things() {
    for name in ["box14-idle", "burst"] {
        let first = input(&format!("traces/{name}.trace")).bytes;
        let second = input(&format!("traces/{name}-tpt29641.trace")).bytes;
        let last = first.len() - 1;
        assert_eq!((&first[..last], first[last], second[last]), (&second[..last], 0, 1));
    }
    for (name, part, limit) in
        [("box14-idle", "PCA9641", 101), ("box14-idle-tpt29641", "TPT29641", 151)]
    {
        let told = told(name);
        assert!(told.contains(&format!(": {part} at address 71h, pins 0 0 0 1, 320 events\n")));
        assert!(told.contains(&format!("ends a grant with RT 00h at {limit} idle ticks, and a")));
        assert!(told.contains(&format!("until the idle timer ends it at {limit} idle ticks;")));
        let (wait, event) = (limit - 1, limit + 14);
        let longest = format!(
            "longest wait {wait} ticks from event 13, then granted at event {event}, tick {limit}"
        );
        assert!(told.contains(&longest), "{told}");
    }
    let (stays, rolls) = (told("burst"), told("burst-tpt29641"));
    assert!(stays.contains(" counting write pointer stays at 7.\n"));
    assert!(
        stays.contains("0 WRITE 01h to mailbox high ") && stays.contains("READ 00h from CONTR")
    );
    assert!(rolls.contains(" counting write pointer rolls from 7 to 0.\n"));
    assert!(rolls.contains("0 WRITE 00h to ID                not acknowledged "));
    assert!(rolls.contains("0 WRITE 01h to CONTR ") && rolls.contains("READ 03h from CONTR"));
}

#[test]
fn the_pictures_are_those_of_the_samples() {
    for name in ["box14-rt00", "box14-rt50", "recovery"] {
        let drawn = output(picture::picture(&input(&format!("traces/{name}.trace"))));
        let path = format!("docs/pictures/{name}.svg");
        assert!(
            fs::read(file(&path)).is_ok_and(|stored| stored == drawn),
            "{path}: gunwaleish picture traces/{name}.trace -o {path}"
        );
    }
}
