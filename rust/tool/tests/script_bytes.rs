//! Bytes of scripts in hex and in decimal, and the warnings about those that may be misread.

mod common;

use std::fs;

use common::{code, root, run, said, Folder};

use gunwaleish_tool::commands::compose::compose;
use gunwaleish_tool::commands::decompose::decompose;
use gunwaleish_tool::files::Input;
use gunwaleish_tool::script::bytes::{read, Mark};
use gunwaleish_tool::script::{read_script, warnings};
use model::traces::trace;

const HEAD: &str = "pins 0 0 0 0\npart PCA9641\n";

#[test]
fn one_byte_in_several_ways() {
    let cases = [
        ("32", 0x32, Mark::None),
        ("a", 0x0A, Mark::None),
        ("5d", 0x5D, Mark::None),
        ("5D", 0x5D, Mark::None),
        ("32h", 0x32, Mark::Hex),
        ("FFH", 0xFF, Mark::Hex),
        ("0x32", 0x32, Mark::Hex),
        ("0X5d", 0x5D, Mark::Hex),
        ("50d", 50, Mark::Decimal),
        ("05d", 5, Mark::Decimal),
        ("255D", 255, Mark::Decimal),
        ("50ms", 50, Mark::Milliseconds),
        ("0ms", 0, Mark::Milliseconds),
        ("255MS", 255, Mark::Milliseconds),
    ];
    for (word, value, mark) in cases {
        let byte = read(word).unwrap_or_else(|| panic!("{word}"));
        assert_eq!((byte.value, byte.mark), (value, mark), "{word}");
    }
    let none = [
        "", "h", "ms", "0x", "100", "G1", "+1", "-1d", "256d", "256ms", "1000ms", "0x100", "100h",
        "5.0ms", "0xh", "5 0d", "32hh", "ff0d", "0x32h",
    ];
    for word in none {
        assert_eq!(read(word), None, "{word}");
    }
}

/// A script in any of them gives the same trace.
#[test]
fn the_same_trace_comes_out() {
    let composed = |byte: &str| {
        let text = format!("{HEAD}command 0 03\nwrite 0 {byte}\nstop 0\npair {byte} 0x1\n");
        compose(&Input { name: "a".into(), bytes: text.into_bytes() }).output.unwrap()
    };
    for byte in ["32h", "0x32", "50d", "50ms"] {
        assert_eq!(composed(byte), composed("32"), "{byte}");
    }
}

/// What is said of a script's bytes.
fn warned(lines: &str) -> Vec<String> {
    warnings::of_script(&read_script(format!("{HEAD}{lines}").as_bytes()).unwrap())
}

/// A byte of RT that does not say what it is, with its value in ms; and nothing of other bytes.
#[test]
fn a_plain_byte_of_rt_is_told() {
    let said = warned("command 0 03\nwrite 0 50\nstop 0\n");
    let expected =
        "line 4: warning: 50 is hex, so RT is 80 ms: write 80ms or 50h for that, or 50ms for 50 ms";
    assert_eq!(said, [expected]);
    let said = warned("command 1 03\nwrite 1 FF\n");
    assert_eq!(said, ["line 4: warning: FF is hex, so RT is 255 ms: write 255ms or FFh for that"]);
    let silent = [
        "command 0 03\nwrite 0 50ms\nwrite 0 50h\nwrite 0 0x50\nwrite 0 50d\n",
        // The same in hex and in decimal.
        "command 0 03\nwrite 0 00\nwrite 0 9\n",
        "command 0 01\nwrite 0 25\n",
        // Refused, since no COMMAND came; and as bytes they stand there as they are.
        "write 0 50\n",
        "command 0 03\nraw 01 00 50 00\n",
    ];
    for lines in silent {
        assert_eq!(warned(lines), Vec::<String>::new(), "{lines}");
    }
}

/// The pointer counts, and a PAIR has a byte of each.
#[test]
fn the_register_is_the_devices() {
    let said = warned("command 0 82\nwrite 0 C0\nwrite 0 10\nwrite 0 10\nstop 0\n");
    assert_eq!(said.len(), 1, "{said:?}");
    assert!(said[0].starts_with("line 5: warning: 10 is hex, so RT is 16 ms"), "{said:?}");
    let said = warned("command 0 03\ncommand 1 05\npair 20 20\n");
    assert_eq!(said.len(), 1, "{said:?}");
    let said = warned("command 0 03\ncommand 1 03\npair 20 30\n");
    assert_eq!(said.len(), 2, "{said:?}");
    assert!(said[1].contains("30 is hex, so RT is 48 ms"), "{said:?}");
}

#[test]
fn what_looks_like_something_else_is_told() {
    let said = warned("command 0 01\nwrite 0 5d\n");
    assert_eq!(said, ["line 4: warning: 5d is hex, 5Dh: write that, or 05d for 5 in decimal"]);
    assert_eq!(warned("command 0 01\nwrite 0 5D\nwrite 0 dd\n"), Vec::<String>::new());
    let said = warned("command 0 01\nwrite 0 5ms\n");
    assert_eq!(said, ["line 4: warning: 5ms is a time, and the byte is for CONTR"]);
}

/// Composing says it and goes on; so do orders and a shelf.
#[test]
fn commands_warn_and_go_on() {
    let folder = Folder::new("warned");
    let (one, two) = (folder.path("a.script"), folder.path("b.script"));
    fs::write(&one, format!("{HEAD}command 0 03\nwrite 0 50\nstop 0\n")).unwrap();
    fs::write(&two, format!("{HEAD}command 1 03\nwrite 1 20ms\nstop 1\n")).unwrap();
    let warning = format!("gunwaleish: {one}, line 4: warning: 50 is hex, so RT is 80 ms: ");
    let composed = run(&["compose", &one]);
    assert_eq!((code(&composed), said(&composed).lines().count()), (0, 1));
    assert!(said(&composed).starts_with(&warning), "{}", said(&composed));
    assert_eq!(composed.stdout.len(), 7 + 12 + 2);
    let ordered = run(&["orders", &one, &two]);
    assert_eq!(code(&ordered), 0, "{}", said(&ordered));
    assert!(said(&ordered).starts_with(&warning), "{}", said(&ordered));
    let (shelf, script) = (folder.path("a.shelf"), folder.path("c.script"));
    fs::write(&shelf, "0x70 PCA9641\n71h TPT29641\n").unwrap();
    fs::write(
        &script,
        "at 71h command 0 03\nat 71 write 0 50\nat 70 command 0 01\nat 70 write 0 21\n",
    )
    .unwrap();
    let shelved = run(&["shelf", &shelf, &script]);
    assert_eq!((code(&shelved), said(&shelved).lines().count()), (0, 1), "{}", said(&shelved));
    assert!(said(&shelved).contains(", line 2: warning: 50 is hex, so RT is 80 ms"));
}

/// A script that the tool writes has reserves in ms, so that it gives no warning; so have the samples.
#[test]
fn written_scripts_give_no_warning() {
    let mut reserves = 0;
    for seed in 0..100 {
        let bytes = trace(seed, 150);
        let script = decompose(&Input { name: "a".into(), bytes }).output.unwrap();
        assert_eq!(warnings::of_script(&read_script(&script).unwrap()), Vec::<String>::new());
        reserves += String::from_utf8(script).unwrap().matches("ms\n").count();
    }
    assert!(reserves > 30, "{reserves}");
    let folders = ["traces", "traces/orders", "traces/rules"].map(|folder| root().join(folder));
    let entries = folders.iter().flat_map(|folder| fs::read_dir(folder).unwrap());
    for path in entries.map(|entry| entry.unwrap().path()) {
        if path.extension().is_some_and(|ending| ending == "script") {
            let script = read_script(&fs::read(&path).unwrap()).unwrap();
            let said = warnings::of_script(&script);
            assert!(said.is_empty(), "{}: {said:?}", path.display());
        }
    }
    let hang = run(&["shelf", "traces/shelf/chassis.shelf", "traces/shelf/hang.script"]);
    assert!(!said(&hang).contains("warning"), "{}", said(&hang));
}
