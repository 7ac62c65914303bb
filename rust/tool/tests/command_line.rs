//! The tool as people call it: exit codes, files in and out, and the help.

mod common;

use std::fs;
use std::path::Path;
use std::process::Command;

use common::{code, root, run, said, text, Folder, TOOL};

use gunwaleish_tool::commands::COMMANDS;

#[test]
fn done_is_0() {
    let listed = run(&["list", "traces/m1.trace"]);
    assert_eq!(code(&listed), 0);
    assert_eq!(listed.stdout, fs::read(root().join("traces/m1.listing")).unwrap());
    assert_eq!(said(&listed), "");
}

#[test]
fn refused_is_1_with_number_words_and_place() {
    let explained = run(&["explain", "traces/refused-cut.trace"]);
    assert_eq!((code(&explained), explained.stdout.len()), (1, 0));
    let expected =
        "gunwaleish: traces/refused-cut.trace: refusal 5: cut: bytes are missing at the \
                    end (seen at byte 24)\n";
    assert_eq!(said(&explained), expected);
    let listed = run(&["list", "traces/refused-strap.trace"]);
    assert_eq!((code(&listed), listed.stdout.as_slice()), (1, &b"R8\n"[..]));
}

/// Files from before traces named their part: refused, and converted into a folder.
#[test]
fn old_traces_are_converted() {
    let folder = Folder::new("old");
    fs::create_dir(folder.path("new")).unwrap();
    let m1 = fs::read(root().join("traces/m1.trace")).unwrap();
    let (old, new) = (folder.path("old.trace"), folder.path("new.trace"));
    fs::write(&old, &m1[..23]).unwrap();
    fs::write(&new, &m1).unwrap();
    let listed = run(&["list", &old]);
    assert_eq!((code(&listed), listed.stdout.as_slice()), (1, &b"R5\n"[..]));
    assert!(said(&listed).contains("gunwaleish convert gives it PCA9641"), "{}", said(&listed));
    let converted = run(&["convert", &old, &new, "-o", &folder.path("new")]);
    assert_eq!(code(&converted), 1);
    let expected = format!(
        "gunwaleish: {new}: refusal 7: there are bytes after the trace's end (seen at byte 23; it \
         is a new trace, and names its part: PCA9641)\n"
    );
    assert_eq!(said(&converted), expected);
    assert_eq!(fs::read(folder.path("new/old.trace")).unwrap(), m1);
    assert!(!Path::new(&folder.path("new/new.trace")).exists());
}

#[test]
fn wrong_use_is_2() {
    let cases: [&[&str]; 10] = [
        &[],
        &["sing"],
        &["list", "--loud"],
        &["list", "--address", "71"],
        &["list", "-o"],
        &["list", "-o", "a", "-o", "b"],
        &["list", "no-such.trace"],
        &["list", "traces/m1.trace", "traces/pair.trace"],
        &["list", "traces/m1.trace", "-o", "no-such-folder/m1.listing"],
        &["list", "traces/m1.trace", "-o", "traces/m1.trace"],
    ];
    for arguments in cases {
        let output = run(arguments);
        assert_eq!((code(&output), output.stdout.len()), (2, 0), "{arguments:?}");
        assert!(said(&output).starts_with("gunwaleish: "), "{arguments:?}");
    }
}

/// The device that a capture is read for is named once, and in one way.
#[test]
fn a_capture_needs_its_device() {
    let cases: [(&[&str], &str); 13] = [
        (&[], "import needs the device"),
        (&["--address", "71"], "import needs the part: --part PCA9641 or --part TPT29641; a kind"),
        (
            &["--address", "71", "--part"],
            "--part needs a part, PCA9641 or TPT29641; gunwaleish import",
        ),
        (&["--address", "71", "--part", "0"], "'0' is no part, expected --part PCA9641 or --part"),
        (&["--part", "PCA9641"], "import needs the device"),
        (&["--address"], "--address needs an address in hex, such as 71; gunwaleish"),
        (&["--pins", "0", "0", "0"], "AD3, AD2, AD1 and AD0, and has 3; gunwaleish import"),
        (&["--address", "7G"], "'7G' is no byte in hex"),
        (&["--address", "78"], "refusal 11: "),
        (&["--address", "E2"], "if E2h is a transfer's first byte, it is 71h"),
        (&["--pins", "1", "0", "0", "0"], "refusal 8: "),
        (&["--address", "71", "--pins", "0", "0", "0", "1"], "are both there"),
        (&["--address", "71", "--address", "71"], "--address is there twice"),
    ];
    for (options, expected) in cases {
        let output = run(&[&["import", "traces/box14.capture"], options].concat());
        assert_eq!((code(&output), output.stdout.len()), (2, 0), "{options:?}");
        assert!(said(&output).contains(expected), "{options:?}: {}", said(&output));
    }
    let mut trace = fs::read(root().join("traces/box14.trace")).unwrap();
    let named: [&[&str]; 4] = [
        &["--address", "71"],
        &["--address", "71h"],
        &["--address", "0x71"],
        &["--pins", "0", "0", "0", "1"],
    ];
    for (part, number) in [("PCA9641", 0), ("pca9641", 0), ("TPT29641", 1)] {
        *trace.last_mut().unwrap() = number;
        for options in named {
            let rest = ["--part", part, "traces/box14.capture"];
            let output = run(&[&["import"], options, &rest].concat());
            assert_eq!((code(&output), output.stdout.as_slice()), (0, trace.as_slice()));
        }
    }
}

/// A capture that ends inside a byte is told with its bus; into a folder go traces, or scripts.
#[test]
fn captures_go_where_they_should() {
    let folder = Folder::new("captures");
    let to = folder.0.to_str().unwrap();
    let capture = fs::read(root().join("traces/box14.capture")).unwrap();
    let (whole, cut) = (folder.path("whole.capture"), folder.path("cut.capture"));
    fs::write(&whole, &capture).unwrap();
    fs::write(&cut, &capture[..150]).unwrap();
    let both = run(&["import", &whole, &cut, "--address", "71", "--part", "PCA9641", "-o", to]);
    assert_eq!(code(&both), 1);
    let expected = format!(
        "gunwaleish: {cut}: refusal 12: a START or STOP inside a byte, or the capture ends inside one \
         (bus 0: the capture ends inside a byte)\n"
    );
    let said_of = said(&both);
    let (summary, refused) = said_of.split_once('\n').unwrap();
    assert!(summary.starts_with(&format!("gunwaleish: {whole}: ")), "{summary}");
    assert!(summary.contains(" transfers (bus 0: ") && summary.contains("2Eh once; 1 skipped; "));
    assert_eq!(refused, expected);
    let device = ["--address", "71", "--part", "PCA9641"];
    let told = run(&[&["import", &whole, "--script"], &device[..], &["-o", to]].concat());
    assert_eq!(code(&told), 0);
    assert_eq!(folder.files(), ["cut.capture", "whole.capture", "whole.script", "whole.trace"]);
    let script = fs::read(root().join("traces/box14.script")).unwrap();
    assert_eq!(fs::read(folder.path("whole.script")).unwrap(), script);
}

/// What the page shows of imports, word for word: the line about one, and one from which no event comes.
#[test]
fn imports_say_what_the_page_has() {
    let folder = Folder::new("imports");
    let page = fs::read_to_string(root().join("docs/CAPTURES.md")).unwrap();
    let command = "\n    build/release/gunwaleish import ";
    let mut codes = vec![];
    for part in page.split(command).skip(1) {
        let Some((line, rest)) = part.split_once("\n\n```\n") else { continue };
        if line.contains('\n') {
            continue;
        }
        let (expected, _) = rest.split_once("```\n").unwrap();
        let line = line.replace(" build/", &format!(" {}/", folder.path("")));
        let words: Vec<&str> = line.split(' ').collect();
        let output = run(&[&["import"], &words[..]].concat());
        assert_eq!((said(&output).as_str(), output.stdout.len()), (expected, 0));
        codes.push(code(&output));
    }
    assert_eq!(codes, [0, 1]);
}

/// The help of each command, and its example, which works.
#[test]
fn examples_of_the_help_work() {
    let overview = String::from_utf8(run(&["--help"]).stdout).unwrap();
    for command in COMMANDS {
        assert!(overview.contains(&format!("\n  {} ", command.name)));
        let help = run(&[command.name, "--help"]);
        let text = String::from_utf8(help.stdout.clone()).unwrap();
        assert_eq!(code(&help), 0);
        assert!(text.contains(command.example));
        let folder = Folder::new(command.name);
        let output = format!("-o {}", folder.0.to_str().unwrap());
        let line = command.example.replace("-o build", &output);
        let line = line.replace("build/release/gunwaleish", TOOL);
        let ran = Command::new("sh").args(["-c", &line]).current_dir(root()).output().unwrap();
        assert_eq!(code(&ran), 0, "{line}: {}", said(&ran));
    }
}

/// The table of commands in `rust/README.md` has a row for each, in the order of the help.
#[test]
fn the_page_has_every_command() {
    let page = text("rust/README.md");
    let row = |line: &str| {
        Some(line.strip_prefix("| `gunwaleish ")?.split([' ', '`']).next()?.to_string())
    };
    let rows: Vec<String> = page.lines().filter_map(row).collect();
    let names: Vec<&str> = COMMANDS.iter().map(|command| command.name).collect();
    assert_eq!(rows, names);
}

#[test]
fn standard_input_and_a_named_output() {
    let folder = Folder::new("output");
    let out = folder.path("m1.listing");
    fs::write(&out, "old").unwrap();
    let trace = fs::File::open(root().join("traces/m1.trace")).unwrap();
    let status = Command::new(TOOL).args(["list", "-", "-o", &out]).stdin(trace).status().unwrap();
    assert!(status.success());
    assert_eq!(fs::read(&out).unwrap(), fs::read(root().join("traces/m1.listing")).unwrap());
    assert_eq!(folder.files(), ["m1.listing"]);
}

/// A device is written to and stays a device; a link stays a link.
#[cfg(unix)]
#[test]
fn devices_and_links_stay_what_they_are() {
    assert_eq!(code(&run(&["list", "traces/m1.trace", "-o", "/dev/null"])), 0);
    assert!(!fs::metadata("/dev/null").unwrap().is_file());
    let folder = Folder::new("link");
    fs::write(folder.path("to"), "old").unwrap();
    std::os::unix::fs::symlink(folder.path("to"), folder.path("from")).unwrap();
    assert_eq!(code(&run(&["list", "traces/m1.trace", "-o", &folder.path("from")])), 0);
    assert!(fs::symlink_metadata(folder.path("from")).unwrap().is_symlink());
    let listing = fs::read(root().join("traces/m1.listing")).unwrap();
    assert_eq!(fs::read(folder.path("to")).unwrap(), listing);
}

/// What is refused leaves the file that was there, and nothing beside it.
#[test]
fn nothing_is_written_of_what_is_refused() {
    let folder = Folder::new("refused");
    let (script, out) = (folder.path("a.script"), folder.path("a.trace"));
    fs::write(&script, "pins 0 0 0 0\npart PCA9641\nwirte 0 01\n").unwrap();
    fs::write(&out, "old").unwrap();
    let composed = run(&["compose", &script, "-o", &out]);
    assert_eq!(code(&composed), 1);
    assert!(said(&composed).contains(&format!("{script}, line 3: 'wirte', expected command")));
    assert_eq!(fs::read(&out).unwrap(), b"old");
    assert_eq!(folder.files(), ["a.script", "a.trace"]);
}

/// Many files go into a folder; one that is refused does not stop the others.
#[test]
fn many_files_go_into_a_folder() {
    let folder = Folder::new("many");
    let to = folder.0.to_str().unwrap();
    let from = ["traces/pair.trace", "traces/refused-cut.trace", "traces/m1.trace"];
    let drawn = run(&[&["picture"], &from[..], &["-o", to]].concat());
    assert_eq!(code(&drawn), 1);
    assert_eq!(said(&drawn).lines().count(), 1, "no progress where there is no terminal");
    assert_eq!(folder.files(), ["m1.svg", "pair.svg"]);
    let twice = run(&["list", "traces/m1.trace", "./traces/m1.trace", "-o", to]);
    assert_eq!(code(&twice), 2);
    let missing = run(&["list", "traces/m1.trace", "no-such.trace", "-o", to]);
    assert_eq!(code(&missing), 2);
    assert_eq!(folder.files(), ["m1.listing", "m1.svg", "pair.svg"]);
}

#[test]
fn a_file_that_begins_with_a_dash() {
    let folder = Folder::new("dash");
    fs::copy(root().join("traces/m1.trace"), folder.path("-m1.trace")).unwrap();
    let listed =
        Command::new(TOOL).args(["list", "--", "-m1.trace"]).current_dir(&folder.0).output();
    assert_eq!(code(&listed.unwrap()), 0);
}
