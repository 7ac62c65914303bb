//! The device after each event: the registers are those that a controller would read, the words say what the numbers do, and what is read off an
//! image is where `docs/IMAGE.md` has it.

mod common;

use common::{ask, at_root, done, file};
use gunwaleish::{run, write_trace, Event, Master, Register};
use gunwaleish_page::image;

/// The entries of `states`, each as its text.
fn entries(trace: &[u8]) -> Vec<String> {
    let answer = done("states", &[trace]);
    let text = answer.text(0);
    let start = text.find("\"states\":[").unwrap() + 10;
    text[start..text.len() - 2].split(",\n").map(str::to_string).collect()
}

/// The numbers of the list after a name.
fn list(entry: &str, name: &str) -> Vec<u16> {
    let at = entry.find(&format!("\"{name}\":[")).unwrap_or_else(|| panic!("{name} in {entry}"));
    let text = entry[at + name.len() + 4..].split("],\"").next().unwrap();
    let digits = |c: char| c.is_ascii_digit() || c == ',';
    let text: String = text
        .chars()
        .take_while(|&c| digits(c) || "[]".contains(c))
        .filter(|&c| digits(c))
        .collect();
    text.split(',').filter(|word| !word.is_empty()).map(|word| word.parse().unwrap()).collect()
}

/// What is read of each register by a COMMAND and a READ after the first events.
fn read_by_events(trace: &[u8], events: usize) -> Vec<u16> {
    let all = run(trace).unwrap();
    let both = Master::BOTH
        .into_iter()
        .flat_map(|master| Register::ALL.map(move |register| (master, register)));
    let read = |(master, register): (Master, Register)| {
        let question = [Event::Command { master, code: register.number() }, Event::Read { master }];
        let asked = [&all.events[..events], &question].concat();
        let answers = run(&write_trace(all.pins, all.part, &asked).unwrap()).unwrap().answers;
        u16::from(answers.last().unwrap().byte_read)
    };
    both.map(read).collect()
}

#[test]
fn registers_are_as_read() {
    at_root();
    for name in ["m1", "mail", "pair", "takeover", "burst-tpt29641", "recovery"] {
        let trace = file(&format!("traces/{name}.trace"));
        let entries = entries(&trace);
        assert_eq!(entries.len(), run(&trace).unwrap().events.len() + 1);
        for (events, entry) in entries.iter().enumerate() {
            let at = entry.rfind("\"registers\":").unwrap();
            assert_eq!(
                list(&entry[at..], "registers"),
                read_by_events(&trace, events),
                "{name}, event {events}: {entry}"
            );
        }
    }
}

/// One entry at a time says in words what all of them say in numbers.
#[test]
fn words_and_numbers() {
    at_root();
    let trace = file("traces/hung-bus.trace");
    for (event, entry) in entries(&trace).iter().enumerate().step_by(7) {
        let answer = done("state", &[&trace, event.to_string().as_bytes()]);
        let state = answer.text(0);
        let at = entry.rfind("\"registers\":").unwrap();
        let bytes = list(&entry[at..], "registers");
        for (place, register) in Register::ALL.iter().enumerate() {
            let row =
                format!("[\"{register}\",\"{:02X}h\",\"{:02X}h\"", bytes[place], bytes[place + 8]);
            assert!(state.contains(&row), "event {event}: {row} in {state}");
        }
        for (name, word) in [
            ("idle", "idle count"),
            ("hold", "hold"),
            ("low_sda", "low count of SDA"),
            ("reserve", "reserve count"),
        ] {
            let value =
                entry.split(&format!("\"{name}\":")).nth(1).unwrap().split(',').next().unwrap();
            assert!(
                state.contains(&format!("[\"{word}\",\"{value}\"]")),
                "event {event}: {word} {value} in {state}"
            );
        }
        let hung = entry.contains("\"hung\":1");
        assert_eq!(state.contains("[\"hung\",\"yes\"]"), hung);
        assert_eq!(state.contains("the bus is hung"), hung, "{state}");
    }
    let power_up = done("state", &[&trace, b"0"]);
    assert!(power_up.text(0).starts_with("{\"event\":0,\"of\":"), "{}", power_up.text(0));
    assert!(power_up.text(0).contains("\"stands\":\"nobody owns the bus\""));
    for wrong in ["-1", "100000", "x", ""] {
        assert!(!ask("state", &[&trace, wrong.as_bytes()]).ok, "{wrong}");
    }
}

/// The rows of `docs/IMAGE.md`.
#[test]
fn offsets_are_the_pages() {
    at_root();
    let page = String::from_utf8(file("docs/IMAGE.md")).unwrap();
    for field in image::ALL {
        let row = format!("| {} | {} | {} |", field.offset, field.bytes, field.name);
        assert!(page.contains(&row), "{row}");
    }
}

/// A story has a row for each line of `explain`, and every event is in one of them.
#[test]
fn stories() {
    at_root();
    for name in ["box14-rt00", "mail"] {
        let trace = file(&format!("traces/{name}.trace"));
        let answer = done("story", &[&trace]);
        let story = answer.text(0);
        let events = run(&trace).unwrap().events.len();
        let mut next = 1;
        for row in story.split("{\"from\":").skip(1) {
            let numbers: Vec<usize> = row
                .split(",\"")
                .take(2)
                .map(|part| part.trim_start_matches("to\":").parse().unwrap())
                .collect();
            assert_eq!(numbers[0], next);
            next = numbers[1] + 1;
        }
        assert_eq!(next, events + 1);
        let explained = done("explain", &[&trace, b"", b"1000"]);
        // The head stands above the rows.
        let lines = explained.text(0).split("\n\n").nth(1).unwrap().lines().count();
        assert_eq!(story.matches("{\"from\":").count() + 1, lines);
    }
}
