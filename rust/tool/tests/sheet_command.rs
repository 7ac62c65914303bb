//! `gunwaleish sheet` as people call it: the samples of `sheets/` with what is said of each, exit
//! codes, and files in and out.

mod common;

use std::collections::BTreeSet;
use std::fs;
use std::process::{Command, Stdio};

use common::{code, root, run, said, samples_on, shell, text, Folder, BUILT, TOOL};

#[test]
fn the_samples_say_what_their_page_has() {
    assert_eq!(samples_on("docs/SHEETS.md", "sheet"), 6);
}

/// The page has every sheet with its bytes, and each has its text beside it.
#[test]
fn the_samples_have_the_bytes_of_their_page() {
    let page = text("docs/SHEETS.md");
    let mut files = BTreeSet::new();
    for line in page.lines().filter(|line| line.contains(".sheet` | `")) {
        let cells: Vec<&str> = line.split('`').collect();
        let bytes = cells[3].split(' ').map(|byte| u8::from_str_radix(byte, 16).unwrap());
        let stored = fs::read(root().join("sheets").join(cells[1])).unwrap();
        assert_eq!(bytes.collect::<Vec<u8>>(), stored, "{}", cells[1]);
        files.insert(cells[1].to_string());
        files.insert(cells[1].replace(".sheet", ".txt"));
    }
    // The tool's help names it; it says where the page is.
    files.insert("README.md".to_string());
    let entries = fs::read_dir(root().join("sheets")).unwrap();
    let there = entries.map(|entry| entry.unwrap().file_name().into_string().unwrap());
    assert_eq!(there.collect::<BTreeSet<_>>(), files);
}

/// The command lines of the page that fill in a text: one that gives its sheet, and one that is mistyped.
#[test]
fn texts_are_filled_in_as_their_page_has_it() {
    let page = text("docs/SHEETS.md");
    let is_command = |line: &&str| line.starts_with("    ") && line.contains("gunwaleish fill ");
    let lines: Vec<&str> = page.lines().filter(is_command).collect();
    let [good, bad] = lines[..] else { panic!("{lines:?}") };
    assert_eq!(code(&shell(good)), 0, "{good}");
    let refused = shell(bad);
    assert_eq!((code(&refused), refused.stdout.len()), (1, 0), "{bad}");
    let block = format!("The exit code is 1.\n\n{bad}\n\n```\n{}```\n", said(&refused));
    assert!(page.contains(&block), "{block}");
}

/// The commands that the release coordinator is told, in their order; they stand at the margin, the samples' are set in.
/// Outputs under build/ go to a folder of the test's own.
#[test]
fn the_coordinators_commands_work() {
    let folder = Folder::new("coordinator");
    let page = text("docs/SHEETS.md");
    let lines = page.lines().filter(|line| line.starts_with(&format!("{BUILT} ")));
    let mut ran = 0;
    for line in lines {
        let output = shell(&line.replace("-o build/", &format!("-o {}/", folder.path(""))));
        assert_eq!(code(&output), 0, "{line}: {}", said(&output));
        ran += 1;
    }
    assert_eq!(ran, 4);
}

/// An empty box is 1 for a script, with the words or without; a complete pair is 0.
#[test]
fn exit_codes_are_for_scripts() {
    let (empty, full) = ("sheets/board-box14.sheet", "sheets/board.sheet");
    let device = ["--pins", "0", "0", "0", "1", "--part", "TPT29641"];
    let words = run(&["sheet", empty, "sheets/house.sheet"]);
    assert_eq!((code(&words), words.stdout.is_empty()), (1, false));
    let trace = run(&[&["sheet", empty, "sheets/house.sheet"], &device[..]].concat());
    assert_eq!((code(&trace), trace.stdout.len()), (1, 0));
    assert_eq!(said(&trace), said(&words));
    assert!(said(&trace).contains(": refusal 14: "));
    let good = run(&["sheet", full, "sheets/house.sheet"]);
    assert_eq!((code(&good), said(&good).as_str()), (0, ""));
    let good = run(&[&["sheet", full, "sheets/house.sheet"], &device[..]].concat());
    assert_eq!((code(&good), said(&good).as_str(), good.stdout.len()), (0, "", 7 + 48 + 2));
    let no_sheet = run(&["sheet", full, "traces/m1.trace"]);
    assert_eq!((code(&no_sheet), no_sheet.stdout.len()), (1, 0));
    assert!(said(&no_sheet).contains("traces/m1.trace, the house sheet: refusal 10: "));
}

#[test]
fn wrong_use_is_2() {
    let (board, house) = ("sheets/board.sheet", "sheets/house.sheet");
    let one_or_two =
        "sheet needs one file, or two files, the board sheet and then the house sheet, and has";
    let two = "sheet needs two files, the board sheet and then the house sheet, and has 1";
    let cases: [(&[&str], &str); 12] = [
        (&[], &format!("{one_or_two} 0")),
        (&[board, house, house], &format!("{one_or_two} 3")),
        (&[board, "--address", "71", "--part", "PCA9641"], &format!("with --address {two}")),
        (&[board, "--script"], &format!("with --script {two}")),
        (&[board, "-o", board], "sheets/board.sheet is an input, and is not written over"),
        (&["-", "-"], "standard input cannot be both sheets"),
        (&[board, "no-such.sheet"], "no-such.sheet cannot be read"),
        (&[board, house, "--address", "71"], "sheet needs the part: --part PCA9641 or --part TPT"),
        (&[board, house, "--part", "PCA9641"], "sheet needs the device: --address, or --pins"),
        (&[board, house, "--script"], "sheet needs the device: --address, or --pins"),
        (&[board, house, "-o", house], "sheets/house.sheet is an input, and is not written over"),
        (&[board, house, "--loud"], "sheet has no option '--loud'"),
    ];
    for (arguments, expected) in cases {
        let output = run(&[&["sheet"], arguments].concat());
        assert_eq!((code(&output), output.stdout.len()), (2, 0), "{arguments:?}");
        assert!(said(&output).contains(expected), "{arguments:?}: {}", said(&output));
    }
}

/// Into a named file, into a folder under the board sheet's name, and out of standard input.
#[test]
fn outputs_go_where_they_should() {
    let folder = Folder::new("sheets");
    let to = folder.0.to_str().unwrap();
    let pair = ["sheet", "sheets/board.sheet", "sheets/house.sheet"];
    let device = ["--address", "71", "--part", "PCA9641"];
    let trace = run(&[&pair[..], &device].concat()).stdout;
    let named = folder.path("start.trace");
    let all: [&[&str]; 3] = [&["-o", &named], &["-o", to], &["--script", "-o", to]];
    for options in all {
        let output = run(&[&pair[..], &device, options].concat());
        assert_eq!((code(&output), output.stdout.len()), (0, 0), "{}", said(&output));
    }
    assert_eq!(code(&run(&[&pair[..], &["-o", to]].concat())), 0);
    assert_eq!(fs::read(&named).unwrap(), trace);
    assert_eq!(fs::read(folder.path("board.trace")).unwrap(), trace);
    assert!(fs::read(folder.path("board.script")).unwrap().starts_with(b"pins 0 0 0 1\n"));
    let words = fs::read(folder.path("board.order.txt")).unwrap();
    assert!(words.starts_with(b"board sheet: sheets/board"));
    let mut child = Command::new(TOOL)
        .args(["sheet", "-", "sheets/house.sheet"])
        .current_dir(root())
        .stdin(Stdio::from(fs::File::open(root().join("sheets/board.sheet")).unwrap()))
        .stdout(Stdio::piped())
        .spawn()
        .unwrap();
    assert!(child.wait().unwrap().success());
}

/// A pair that is refused leaves the file that was there.
#[test]
fn nothing_is_written_of_what_is_refused() {
    let folder = Folder::new("sheet-refused");
    let out = folder.path("start.trace");
    fs::write(&out, "old").unwrap();
    let device = ["--address", "71", "--part", "PCA9641", "-o", &out];
    for board in ["sheets/board-box14.sheet", "traces/m1.trace"] {
        let output = run(&[&["sheet", board, "sheets/house.sheet"], &device[..]].concat());
        assert_eq!((code(&output), output.stdout.len()), (1, 0));
        assert_eq!(fs::read(&out).unwrap(), b"old");
    }
}
