//! A wrong file: behind the refusal stands what it looks like and which command takes it, both ways
//! between all kinds; and nothing stands behind the refusal of a damaged file of the right kind.

mod common;

use std::fs;

use common::{code, root, run, said, told, Folder};

use gunwaleish_tool::files::Input;
use gunwaleish_tool::hint::{hint, kind_of, Kind};
use model::damage::{damage, ALL_DAMAGES};
use model::rng::Rng;
use model::traces::trace;

const DEVICE: [&str; 4] = ["--address", "71", "--part", "PCA9641"];
const SCRIPT: &str = "looks like a script for one device: gunwaleish compose makes a trace of it";
const FOR_SHELF: &str = "looks like a script for a shelf: gunwaleish shelf runs it";
const SHELF: &str = "looks like a shelf file: gunwaleish shelf takes it, and then a script";
const SHEET: &str =
    "looks like an order sheet: gunwaleish sheet shows it, and tells what two of them order";
const TEXT: &str = "looks like the text of an order sheet: gunwaleish fill makes the sheet of it";
const CAPTURE: &str = "looks like a capture: gunwaleish import makes a trace of it";
const STREAM: &str = "looks like a stream of traces: gunwaleish share --stream counts it";
const EXPLAIN: &str = "looks like a trace: gunwaleish explain tells it in words";
const DECOMPOSE: &str = "looks like a trace: gunwaleish decompose makes a script of it";

/// Runs the tool, which has to refuse with one line that ends in this hint.
fn refused(arguments: &[&str], expected: &str) {
    let output = run(arguments);
    assert_eq!(code(&output), 1, "{arguments:?}: {}", said(&output));
    let said = said(&output);
    assert_eq!(said.lines().count(), 1, "{arguments:?}: {said}");
    let hint = said.rsplit("; it ").next().unwrap_or_default();
    assert!(hint.contains(expected), "{arguments:?}: {said}");
}

#[test]
fn where_a_trace_is_wanted() {
    let files = [
        ("traces/m1.script", SCRIPT),
        ("traces/shelf/hang.script", FOR_SHELF),
        ("traces/shelf/chassis.shelf", SHELF),
        ("sheets/board.sheet", SHEET),
        ("sheets/board.txt", TEXT),
        ("traces/box14.capture", CAPTURE),
        ("crates/report/stdin", STREAM),
        ("traces/m1.listing", "looks like a listing, which gunwaleish list makes of a trace"),
        ("docs/pictures/recovery.svg", "looks like a picture, which nothing reads"),
    ];
    for (file, expected) in files {
        for command in ["explain", "list", "decompose", "wave", "picture", "convert"] {
            refused(&[command, file], expected);
        }
        let ran = run(&["run", file]);
        assert!(said(&ran).contains(&format!("; it {expected}")), "{file}: {}", said(&ran));
        let counted = run(&["share", file]);
        assert!(said(&counted).contains(&format!("; it {expected}")), "{file}: {}", said(&counted));
    }
}

#[test]
fn where_something_else_is_wanted() {
    let capture = |file: &'static str| [&["import", file], &DEVICE[..]].concat();
    let [start, shelf, hang] =
        ["traces/orders/start0.script", "traces/shelf/chassis.shelf", "traces/shelf/hang.script"];
    let cases: [(&[&str], &str); 25] = [
        (&["compose", "traces/m1.trace"], DECOMPOSE),
        (&["compose", "sheets/board.sheet"], SHEET),
        (&["compose", "traces/box14.capture"], CAPTURE),
        (&["compose", shelf], SHELF),
        (&["orders", start, "traces/m1.trace"], DECOMPOSE),
        (&["orders", "sheets/board.sheet", start], SHEET),
        (
            &["shelf", hang, shelf],
            "looks like a script: the shelf comes first, and then its script",
        ),
        (&["shelf", shelf, "traces/m1.script"], SCRIPT),
        (&["shelf", shelf, "traces/m1.trace"], DECOMPOSE),
        (&["shelf", shelf, shelf], SHELF),
        (&["sheet", "traces/m1.trace", "sheets/house.sheet"], EXPLAIN),
        (&["sheet", "sheets/board.sheet", "traces/m1.script"], SCRIPT),
        (&["sheet", "sheets/board.sheet", "traces/box14.capture"], CAPTURE),
        (&["sheet", "sheets/board.txt", "sheets/house.sheet"], TEXT),
        (&["sheet", "sheets/board.txt"], TEXT),
        (&["sheet", "traces/m1.trace"], EXPLAIN),
        (&["fill", "traces/m1.trace"], EXPLAIN),
        (&["fill", "traces/m1.script"], SCRIPT),
        (&["fill", "traces/box14.capture"], CAPTURE),
        (&["fill", shelf], SHELF),
        (&["compose", "sheets/board.txt"], TEXT),
        (&capture("traces/box14.trace"), EXPLAIN),
        (&capture("traces/box14.script"), SCRIPT),
        (&capture("sheets/board.sheet"), SHEET),
        (&capture(shelf), SHELF),
    ];
    for (arguments, expected) in cases {
        refused(arguments, expected);
    }
}

const EXPORTED: &str = "docs/CAPTURES.md tells how one is exported";

/// What logic analysers and other programs save, told where a capture is wanted and where a trace is.
#[test]
fn files_of_other_programs() {
    let folder = Folder::new("hints");
    let vcd = run(&["wave", "traces/m1.trace"]).stdout;
    let session = b"PK\x03\x04\x14\0\0\0\x08\0version".to_vec();
    fs::write(folder.path("box.sr"), session).unwrap();
    for command in ["explain", "compose"] {
        let path = folder.path("box.sr");
        refused(&[command, &path], "looks like a zip file, as a sigrok session");
    }
    // Where a capture is wanted these are read, and what is missing in them is told.
    let texts: [(&str, Vec<u8>, &str); 4] = [
        ("box.vcd", vcd, "no line is called SCL0, SDA0, SCL1, SDA1; there are "),
        (
            "a.csv",
            b"; CSV generated by libsigrok 0.5.2\n1,1,1,1\n0,1,1,1\n".to_vec(),
            "line 2: a header of names is expected, and here are levels: put the line",
        ),
        (
            "b.csv",
            b"Time [s],Channel 0,Channel 1\n0.0,1,1\n1.5e-6,0,1\n".to_vec(),
            "line 1: no line is called SCL0, SDA0, SCL1, SDA1; there are Time [s], Channel 0, Channel 1",
        ),
        (
            "c.txt",
            b"SCL0,SDA0,SCL1,SDA1\n1,1,1,1\n".to_vec(),
            "no transfer in 1 sample; bits 0 to 3 are to be SCL0, SDA0, SCL1 and SDA1",
        ),
    ];
    for (name, bytes, of_import) in texts {
        let path = folder.path(name);
        fs::write(&path, bytes).unwrap();
        refused(&["explain", &path], EXPORTED);
        refused(&["compose", &path], EXPORTED);
        let output = run(&[&["import", &path], &DEVICE[..]].concat());
        assert_eq!((code(&output), output.stdout.len()), (1, 0), "{name}");
        assert!(said(&output).contains(of_import), "{name}: {}", said(&output));
    }
}

/// Files that no command reads as they are.
#[test]
fn files_that_nothing_reads() {
    let folder = Folder::new("hints-of-none");
    let utf16 = |text: &str| -> Vec<u8> {
        [0xFEFF].into_iter().chain(text.encode_utf16()).flat_map(u16::to_le_bytes).collect()
    };
    let cases: [(&str, Vec<u8>, &str); 4] = [
        (
            "m1.trace.gz",
            b"\x1F\x8B\x08\0\0\0\0\0".to_vec(),
            "is compressed: gunzip gives what is in it",
        ),
        ("m1.script", utf16("pins 0 0 0 1\n"), "is text in UTF-16: save it as UTF-8"),
        ("empty", vec![], "is empty"),
        // The bytes say nothing, but the name does.
        ("odd.vcd", vec![0xFE, 0x01, 0x9C], EXPORTED),
    ];
    for (name, bytes, expected) in cases {
        let path = folder.path(name);
        fs::write(&path, bytes).unwrap();
        refused(&["explain", &path], expected);
        refused(&["compose", &path], expected);
        refused(&[&["import", &path], &DEVICE[..]].concat(), expected);
    }
    let path = folder.path("kept");
    assert_eq!(code(&run(&["share", "traces/m1.trace", "--totals", &path])), 0);
    refused(&["explain", &path], "looks like totals: gunwaleish share --join takes them");
}

/// Damaged traces, and scripts with a slip, are of the kind that is wanted: nothing more is said.
#[test]
fn damaged_files_of_the_right_kind_have_no_hint() {
    let mut rng = Rng::new(41);
    for seed in 0..200 {
        let good = trace(seed, 1 + seed as usize % 40);
        assert_eq!(kind_of(&good), Some(Kind::Trace));
        for kind in ALL_DAMAGES {
            let bytes = damage(&mut rng, &good, kind).trace;
            let said = hint(&Input { name: "a.trace".to_string(), bytes }, Kind::Trace);
            // Of a trace that is cut near its beginning too little is left.
            assert!(said.is_empty() || said == "; it is empty", "{said}");
        }
    }
    let folder = Folder::new("slips");
    for text in ["pins 0 0 0 1\npart PCA9641\nwirte 0 01\n", "wirte 0 01\n"] {
        let path = folder.path("a.script");
        fs::write(&path, text).unwrap();
        assert!(!said(&run(&["compose", &path])).contains("; it "));
    }
}

/// A sheet's text is known by its first line of a box, mistyped or not, and `fill` says of a mistyped one
/// what is mistyped and no more.
#[test]
fn the_text_of_a_sheet() {
    let good = fs::read_to_string(root().join("sheets/house.txt")).unwrap();
    let folder = Folder::new("sheet-text");
    let path = folder.path("a.txt");
    let slips =
        [("Downstream reserve, ms", "Downstrem reserve, ms"), ("controller 0:", "contr 0:")];
    for (from, to) in slips {
        let text = good.replace(from, to);
        assert_ne!(text, good);
        assert_eq!(kind_of(text.as_bytes()), Some(Kind::SheetText), "{text}");
        fs::write(&path, text).unwrap();
        let filled = run(&["fill", &path]);
        assert_eq!(code(&filled), 1);
        assert!(!said(&filled).contains("; it "), "{}", said(&filled));
        refused(&["sheet", &path, "sheets/house.sheet"], TEXT);
    }
    assert_eq!(kind_of(good.as_bytes()), Some(Kind::SheetText));
    let utf16: Vec<u8> =
        [0xFEFF].into_iter().chain(good.encode_utf16()).flat_map(u16::to_le_bytes).collect();
    fs::write(&path, utf16).unwrap();
    assert_eq!(said(&run(&["fill", &path])).matches("UTF-16").count(), 1);
}

/// A verdict has them too: each file that stands for another kind is told as such, and a text of a sheet
/// with the one command that makes the sheet.
#[test]
fn in_a_verdict() {
    let [board, house] = ["sheets/board.sheet", "sheets/house.sheet"];
    let starts = ["--start0", "traces/orders/start0.script", "--start1", "traces/m1.trace"];
    let shelf = "traces/shelf/chassis.shelf";
    let cases: [(&[&str], &str); 6] = [
        (&["--board", "traces/m1.trace", "--house", house], EXPLAIN),
        (&["--board", board, "--house", house, "--traces", "traces/m1.script"], SCRIPT),
        (&[&["--board", board, "--house", house], &starts[..]].concat(), DECOMPOSE),
        (&["--board", board, "--house", house, "--shelf", board, "--shelf-script", shelf], SHEET),
        (&["--board", board, "--house", house, "--shelf", shelf, "--shelf-script", shelf], SHELF),
        (&["--board", "sheets/board.txt", "--house", house], "it is text."),
    ];
    for (arguments, expected) in cases {
        let output = run(&[&["release"], arguments].concat());
        let text = told(&output);
        assert_eq!(code(&output), 1, "{text}");
        assert!(text.contains(expected), "{arguments:?}: {text}");
        if expected == "it is text." {
            assert_eq!(text.matches("gunwaleish fill makes").count(), 1, "{text}");
        }
    }
}

/// Pages and other texts are taken for nothing that they are not.
#[test]
fn other_texts_are_of_no_kind() {
    let plain = "looks like plain text, which no trace, capture or order sheet is";
    refused(&["explain", "README.md"], plain);
    let fill = "looks like plain text: gunwaleish fill makes a sheet of a sheet's text";
    refused(&["sheet", "README.md", "sheets/house.sheet"], fill);
    refused(&["sheet", "README.md"], fill);
    for command in ["compose", "fill"] {
        assert!(!said(&run(&[command, "README.md"])).contains("; it "), "{command}");
    }
    for file in
        ["README.md", "docs/SHARE.md", "docs/SHEETS.md", "rust/tool/src/hint.rs", "tools/lint"]
    {
        let bytes = fs::read(root().join(file)).unwrap();
        assert_eq!(kind_of(&bytes), None, "{file}");
    }
    assert_eq!(kind_of(b"read the manual\nat 5 the shop closes\n"), None);
}
