//! `gunwaleish fill` and `gunwaleish sheet` with one sheet as people call them: the sample texts, both ways,
//! exit codes, and files in and out.

mod common;

use std::fs;
use std::path::Path;

use common::{code, in_terminal, root, run, said, shell, told, Folder, BUILT};

/// The sample sheets, without their ending.
fn samples() -> Vec<String> {
    let entries = fs::read_dir(root().join("sheets")).unwrap();
    let paths = entries.map(|entry| entry.unwrap().path());
    let sheets = paths.filter(|path| path.extension().is_some_and(|found| found == "sheet"));
    sheets.map(|path| path.file_stem().unwrap().to_str().unwrap().to_string()).collect()
}

/// Each sample's text gives its sheet, and its sheet the text; in a pipe too.
#[test]
fn each_sample_has_its_text() {
    let folder = Folder::new("texts");
    assert!(samples().len() >= 6);
    for name in samples() {
        let (sheet, text) = (format!("sheets/{name}.sheet"), format!("sheets/{name}.txt"));
        let bytes = fs::read(root().join(&sheet)).unwrap();
        let filled = run(&["fill", &text]);
        assert_eq!((code(&filled), said(&filled).as_str(), filled.stdout), (0, "", bytes.clone()));
        let shown = run(&["sheet", &sheet]);
        let stored = fs::read_to_string(root().join(&text)).unwrap();
        assert!(told(&shown) == stored, "gunwaleish sheet {sheet} -o {text}");
        assert_eq!((code(&shown), said(&shown).as_str()), (0, ""));
        let again = folder.path(&format!("{name}.sheet"));
        let piped = shell(&format!("{BUILT} sheet {sheet} | {BUILT} fill - -o {again}"));
        assert_eq!((code(&piped), fs::read(&again).unwrap()), (0, bytes));
    }
}

/// What is no sheet is refused with number, bytes and words, as one of a pair is; a text with what to do.
#[test]
fn what_is_no_sheet_is_told_as_in_a_pair() {
    let folder = Folder::new("no-sheets");
    let stored = fs::read(root().join("sheets/board.sheet")).unwrap();
    let (long, short) = (folder.path("long"), folder.path("short"));
    fs::write(&long, [&stored[..], &[0; 40]].concat()).unwrap();
    fs::write(&short, &stored[..7]).unwrap();
    let numbers =
        [("traces/m1.trace", 10), (&long, 7), (&short, 5), ("/dev/null", 5), ("README.md", 10)];
    for (file, number) in numbers {
        let alone = run(&["sheet", file]);
        assert_eq!((code(&alone), alone.stdout.len()), (1, 0));
        let start = format!("gunwaleish: {file}: refusal {number}: ");
        assert!(said(&alone).starts_with(&start), "{}", said(&alone));
        let pair = run(&["sheet", file, "sheets/house.sheet"]);
        assert_eq!(said(&alone), said(&pair).replace(", the board sheet: ", ": "));
        let hint = "; it looks like plain text: gunwaleish fill makes a sheet of a sheet's text\n";
        assert_eq!(said(&alone).ends_with(hint), file == "README.md", "{}", said(&alone));
    }
}

/// What is mistyped is 1, with a line for each error, and leaves the file that was there.
#[test]
fn what_is_mistyped_is_1_and_writes_nothing() {
    let folder = Folder::new("mistyped");
    let (text, out) = (folder.path("a.txt"), folder.path("a.sheet"));
    let good = fs::read_to_string(root().join("sheets/board.txt")).unwrap();
    fs::write(&text, good.replace(": 50\n", ": 0\n").replace(": 20\n", ": 20 ms\n")).unwrap();
    fs::write(&out, "old").unwrap();
    let filled = run(&["fill", &text, "-o", &out]);
    assert_eq!((code(&filled), filled.stdout.len()), (1, 0));
    let errors = said(&filled);
    let lines: Vec<&str> = errors.lines().collect();
    assert_eq!(lines.len(), 2, "{lines:?}");
    assert!(
        lines[0].starts_with(&format!("gunwaleish: {text}, line 5: '0', expected 1 to 255, or "))
    );
    assert!(
        lines[1].starts_with(&format!("gunwaleish: {text}, line 6: '20 ms', expected 20 alone"))
    );
    assert_eq!(fs::read(&out).unwrap(), b"old");
    assert_eq!(folder.files(), ["a.sheet", "a.txt"]);
}

/// Into a named file, into a folder, many at once, where one that is refused does not stop the others.
#[test]
fn outputs_go_where_they_should() {
    let folder = Folder::new("filled");
    let (to, bad) = (folder.name(), folder.path("bad.txt"));
    fs::write(&bad, "Priority, controller 0: 1\n").unwrap();
    let texts = ["sheets/board.txt", &bad, "sheets/house.txt"];
    let many = run(&[&["fill"], &texts[..], &["-o", to]].concat());
    assert_eq!((code(&many), said(&many).lines().count()), (1, 1));
    assert_eq!(folder.files(), ["bad.txt", "board.sheet", "house.sheet"]);
    for name in ["board.sheet", "house.sheet"] {
        let stored = fs::read(root().join("sheets").join(name)).unwrap();
        assert_eq!(fs::read(folder.path(name)).unwrap(), stored);
        assert_eq!(code(&run(&["sheet", &folder.path(name), "-o", to])), 0);
    }
    assert_eq!(folder.files(), ["bad.txt", "board.sheet", "board.txt", "house.sheet", "house.txt"]);
    // The words of the pair are not written over the board sheet's text.
    let pair = [folder.path("board.sheet"), folder.path("house.sheet")];
    assert_eq!(code(&run(&["sheet", &pair[0], &pair[1], "-o", to])), 0);
    let text = fs::read(root().join("sheets/board.txt")).unwrap();
    assert_eq!(fs::read(folder.path("board.txt")).unwrap(), text);
    assert!(Path::new(&folder.path("board.order.txt")).exists());
}

#[test]
fn wrong_use_is_2() {
    let folder = Folder::new("fill-wrong");
    let text = folder.path("a.txt");
    fs::copy(root().join("sheets/board.txt"), &text).unwrap();
    let cases: [(&[&str], &str); 7] = [
        (&["no-such.txt"], "no-such.txt cannot be read"),
        (&["sheets"], "sheets cannot be read"),
        (&[&text, "-o", &text], "is an input, and is not written over"),
        (&[&text, "-o", "no-such-folder/a.sheet"], "no-such-folder/a.sheet cannot be written"),
        (&[&text, "sheets/house.txt"], "many files need a folder for their outputs"),
        (&[&text, "--part", "PCA9641"], "fill has no option '--part'"),
        (&[&text, "-o", "/dev/full"], "/dev/full cannot be written: No space left"),
    ];
    for (arguments, expected) in cases {
        let output = run(&[&["fill"], arguments].concat());
        assert_eq!((code(&output), output.stdout.len()), (2, 0), "{arguments:?}");
        assert!(said(&output).contains(expected), "{arguments:?}: {}", said(&output));
    }
    assert_eq!(folder.files(), ["a.txt"]);
    let full = shell(&format!("{BUILT} fill sheets/board.txt > /dev/full"));
    assert_eq!(code(&full), 2);
    assert!(said(&full).contains("standard output cannot be written"), "{}", said(&full));
}

/// Fifteen bytes that are no text do not go to a terminal, by the rule for all that is binary; into a file
/// they do, also from one.
#[cfg(unix)]
#[test]
fn a_terminal_gets_no_bytes() {
    let folder = Folder::new("terminal");
    let refused = "gunwaleish: what comes out is binary, and standard output is a terminal: ";
    for line in ["fill sheets/board.txt", "fill sheets/board.txt -o -", "fill <sheets/board.txt"] {
        let Some((code, shown)) = in_terminal(&format!("$TOOL {line}")) else {
            return println!("skipped: script is not installed (it comes with util-linux)");
        };
        assert_eq!(code, 2, "{line}: {shown}");
        assert!(shown.starts_with(refused) && shown.lines().count() == 1, "{line}: {shown}");
    }
    let out = folder.path("a.sheet");
    let line = format!("$TOOL fill sheets/board.txt -o {out}");
    assert_eq!(in_terminal(&line), Some((0, String::new())));
    let stored = fs::read(root().join("sheets/board.sheet")).unwrap();
    assert_eq!(fs::read(&out).unwrap(), stored);
}
