//! `gunwaleish release` as the release coordinator calls it: the samples of `releases/` with what is said of
//! each, exit codes, files by option, and folders and files that are none.

mod common;

use std::collections::BTreeSet;
use std::ffi::{OsStr, OsString};
use std::fs;
use std::os::unix::ffi::OsStrExt;
use std::os::unix::fs::{symlink, PermissionsExt};
use std::path::Path;
use std::process::Command;

use common::{code, root, run, said, shell, told, Folder, BUILT, TOOL};

const SAFE: &str = "releases/safe";

/// The command lines of a page, each with the exit code that was named last before it.
fn commands_of(page: &str) -> Vec<(String, i32)> {
    let text = common::text(page).replace("exit\ncode", "exit code");
    let mut found = vec![];
    let mut exit = 0;
    for line in text.lines() {
        if let Some(command) = line.strip_prefix("    ").filter(|line| line.starts_with(BUILT)) {
            found.push((command.to_string(), exit));
        }
        let named = line.split_once("exit code is ").and_then(|(_, rest)| rest.chars().next());
        exit = named.and_then(|digit| digit.to_digit(10)).map_or(exit, |digit| digit as i32);
    }
    found
}

/// Every folder is on the page with its command, and says what is stored beside its files.
#[test]
fn the_samples_say_what_is_stored() {
    let mut seen = BTreeSet::new();
    for (line, exit) in commands_of("releases/README.md") {
        let folder = line.split(' ').nth(2).unwrap();
        let output = shell(&line);
        assert_eq!((code(&output), said(&output).as_str()), (exit, ""), "{line}");
        let stored = common::text(&format!("{folder}/verdict.txt"));
        assert!(told(&output) == stored, "{line} says\n{}", told(&output));
        let released = stored.contains("\nRELEASED");
        assert_eq!(
            (released, stored.contains("\nNOT RELEASED: ")),
            (exit == 0, exit == 1),
            "{line}"
        );
        seen.insert(folder.to_string());
    }
    let mut there = BTreeSet::new();
    for place in ["releases", "releases/reasons"] {
        for entry in fs::read_dir(root().join(place)).unwrap().map(|entry| entry.unwrap()) {
            let name = entry.file_name().into_string().unwrap();
            let is_sample = entry.file_type().unwrap().is_dir() && name != "reasons";
            there.extend(is_sample.then(|| format!("{place}/{name}")));
        }
    }
    assert_eq!(seen, there);
    assert!(seen.len() >= 13, "{seen:?}");
}

/// The start-up scripts of the safe release are those that its sheets give, and its sheets are the samples'.
#[test]
fn the_safe_release_is_made_of_its_sheets() {
    let sheets = format!("{SAFE}/board.sheet {SAFE}/house.sheet");
    for controller in [0, 1] {
        let line = format!(
            "{BUILT} sheet {sheets} --address 71 --part PCA9641 --script --controller {controller}"
        );
        let stored = common::text(&format!("{SAFE}/start{controller}.script"));
        assert_eq!(told(&shell(&line)), stored);
    }
    for name in ["board.sheet", "house.sheet"] {
        let sample = fs::read(root().join("sheets").join(name)).unwrap();
        assert_eq!(fs::read(root().join(SAFE).join(name)).unwrap(), sample);
    }
}

/// The coordinator's page: its commands work, with the exit codes that it names, and what it shows of
/// them is what they say.
#[test]
fn the_coordinators_page_holds() {
    let page = common::text("docs/RELEASE.md");
    let folder = Folder::new("coordinators");
    let mut ran = 0;
    for (line, exit) in commands_of("docs/RELEASE.md") {
        let output = shell(&line.replace("-o build/", &format!("-o {}/", folder.name())));
        assert_eq!(code(&output), exit, "{line}: {}", said(&output));
        ran += 1;
        let Some((_, after)) = page.split_once(&format!("\n    {line}\n\n```\n")) else { continue };
        let shown = after.split_once("```\n").unwrap().0;
        let all = told(&output);
        for part in shown.split("...\n") {
            assert!(all.contains(part), "{line} does not say:\n{part}");
        }
    }
    assert!(ran >= 4, "{ran}");
}

/// A copy of a release in a folder of the test's own.
fn copy(of: &str, to: &Path) {
    fs::create_dir_all(to).unwrap();
    for entry in fs::read_dir(root().join(of)).unwrap().map(|entry| entry.unwrap()) {
        let (name, path) = (entry.file_name(), entry.path());
        match entry.file_type().unwrap().is_dir() {
            true => copy(path.to_str().unwrap(), &to.join(name)),
            false => fs::copy(path, to.join(name)).map(|_| ()).unwrap(),
        }
    }
}

#[test]
fn files_are_named_by_option_too() {
    let [board, house] = [format!("{SAFE}/board.sheet"), format!("{SAFE}/house.sheet")];
    let sheets = ["release", "--board", &board, "--house", &house];
    let alone = run(&sheets);
    assert_eq!(code(&alone), 0, "{}", said(&alone));
    assert!(
        told(&alone).starts_with("Release\n\nfound      board sheet: releases/safe/board.sheet\n")
    );
    let whole = run(&["release", SAFE]);
    let named: Vec<String> = [
        ("--start0", "start0.script"),
        ("--start1", "start1.script"),
        ("--shelf", "shelf/chassis.shelf"),
        ("--shelf-script", "shelf/takeover.script"),
        ("--traces", "traces"),
    ]
    .iter()
    .flat_map(|(option, name)| [option.to_string(), format!("{SAFE}/{name}")])
    .collect();
    let named: Vec<&str> = named.iter().map(String::as_str).collect();
    let by_option = run(&[&sheets[..], &named].concat());
    assert_eq!(code(&by_option), 0, "{}", said(&by_option));
    // The same but for the folder's name and what was not read there.
    let without = |text: &str| -> Vec<String> {
        let lines = text.lines().filter(|line| !line.starts_with("not read"));
        lines.skip(1).map(str::to_string).collect()
    };
    assert_eq!(without(&told(&by_option)), without(&told(&whole)));
}

/// With a folder, an option takes the place of its file.
#[test]
fn an_option_beside_a_folder() {
    let other = run(&["release", SAFE, "--board", "sheets/board-box14.sheet"]);
    assert_eq!(code(&other), 1);
    let text = told(&other);
    assert!(text.contains("found      board sheet: sheets/board-box14.sheet\n"), "{text}");
    assert!(text.contains("not read   releases/safe/board.sheet, "), "{text}");
    let cut = run(&[
        "release",
        SAFE,
        "--traces",
        "traces/refused-cut.trace",
        "--traces",
        "traces/m1.trace",
    ]);
    assert_eq!(code(&cut), 1);
    assert!(told(&cut).contains("found      2 traces: traces/refused-cut.trace, traces/m1.trace\n"));
}

#[test]
fn wrong_use_is_2() {
    let board = format!("{SAFE}/board.sheet");
    let cases: [(&[&str], &str); 17] = [
        (&[], "release needs a folder, or both sheets by option, and --board is not there"),
        (&["--board", &board], "--house is not there"),
        (&[SAFE, SAFE], "release needs one folder, and has 2"),
        (&[SAFE, "releases/incident"], "release needs one folder, and has 2"),
        (&["-"], "standard input is no folder"),
        (&["no-such-folder"], "no-such-folder cannot be read: "),
        (&[&board], "releases/safe/board.sheet is no folder; single files are named by option"),
        (&["traces"], "traces has no board.sheet; --board names another file"),
        (&["sheets", "--board", "releases"], "releases cannot be read: it is no file"),
        (&[SAFE, "--board", "/dev/zero"], "/dev/zero cannot be read: it is no file"),
        (&[SAFE, "--traces", "no-such.trace"], "no-such.trace cannot be read: "),
        (&[SAFE, "--traces", "sheets"], "sheets: no trace; skipped: "),
        (
            &["sheets", "--start0", &board],
            "is there without the other controller's start-up script",
        ),
        (&["sheets", "--shelf-script", &board], "--shelf-script needs a shelf: --shelf FILE"),
        (&[SAFE, "--most", "1s"], "--most '1s', expected a count of milliseconds"),
        (&[SAFE, "--without-limit", "2"], "--without-limit '2', expected 0, 1 or both"),
        (&[SAFE, "--most", "60", "--most", "70"], "--most is there twice"),
    ];
    for (arguments, expected) in cases {
        let output = run(&[&["release"], arguments].concat());
        assert_eq!((code(&output), output.stdout.len()), (2, 0), "{arguments:?}");
        assert!(said(&output).contains(expected), "{arguments:?}: {}", said(&output));
        assert_eq!(said(&output).lines().count(), 1);
    }
}

/// A folder with a part of what it needs is told, with what to do.
#[test]
fn a_folder_that_lacks_something_is_2() {
    let folder = Folder::new("release-lacks");
    let here = folder.0.join("bundle");
    let refused = |expected: &str| {
        let output = run(&["release", here.to_str().unwrap()]);
        assert_eq!((code(&output), output.stdout.len()), (2, 0), "{expected}");
        assert!(said(&output).contains(expected), "{}", said(&output));
    };
    fs::create_dir(&here).unwrap();
    refused("bundle has no board.sheet; --board names another file");
    fs::write(here.join("board.txt"), "").unwrap();
    let name = here.to_str().unwrap();
    refused(&format!("has no board.sheet, but its text: gunwaleish fill {name}/board.txt -o {name}/board.sheet makes the sheet\n"));
    copy(SAFE, &here);
    // Nobody wrote that sheet in that text.
    let other = run(&["release", name]);
    assert_eq!(code(&other), 1);
    assert!(told(&other).contains("/board.sheet, and its text "), "{}", told(&other));
    fs::copy(root().join("sheets/board.txt"), here.join("board.txt")).unwrap();
    assert_eq!(code(&run(&["release", name])), 0);
    fs::remove_file(here.join("start1.script")).unwrap();
    refused("start0.script is there without the other controller's start-up script");
    fs::remove_file(here.join("start0.script")).unwrap();
    fs::write(here.join("other.shelf"), "70 PCA9641\n").unwrap();
    refused("a release has one shelf, and ");
    fs::remove_file(here.join("other.shelf")).unwrap();
    fs::remove_file(here.join("house.sheet")).unwrap();
    refused("bundle has no house.sheet; --house names another file");
}

/// Files that cannot be read, also a single trace: there is no verdict over a part of a release.
#[test]
fn what_cannot_be_read_is_2() {
    let folder = Folder::new("release-unread");
    let here = folder.0.join("bundle");
    copy(SAFE, &here);
    let name = here.to_str().unwrap();
    symlink("nowhere", here.join("traces/gone.trace")).unwrap();
    let output = run(&["release", name]);
    assert_eq!((code(&output), output.stdout.len()), (2, 0));
    assert!(said(&output).contains("gone.trace cannot be read: "), "{}", said(&output));
    fs::remove_file(here.join("traces/gone.trace")).unwrap();
    // For whoever may read everything there is no such file.
    let locked = here.join("house.sheet");
    fs::set_permissions(&locked, fs::Permissions::from_mode(0o000)).unwrap();
    if fs::read(&locked).is_err() {
        let output = run(&["release", name]);
        assert_eq!((code(&output), output.stdout.len()), (2, 0));
        assert!(said(&output).contains("house.sheet cannot be read: "), "{}", said(&output));
    }
    fs::set_permissions(&locked, fs::Permissions::from_mode(0o644)).unwrap();
    assert_eq!(code(&run(&["release", name])), 0);
}

/// Links to folders are not followed, so a circle has an end; they are told.
#[test]
fn links_in_circles_have_an_end() {
    let folder = Folder::new("release-circle");
    let here = folder.0.join("bundle");
    copy(SAFE, &here);
    symlink(&here, here.join("traces/again")).unwrap();
    symlink("loop.trace", here.join("loop.trace")).unwrap();
    let name = here.to_str().unwrap();
    let output = run(&["release", name]);
    assert_eq!((code(&output), output.stdout.len()), (2, 0));
    assert!(said(&output).contains("loop.trace cannot be read: "), "{}", said(&output));
    fs::remove_file(here.join("loop.trace")).unwrap();
    let output = run(&["release", name]);
    assert_eq!(code(&output), 0, "{}", said(&output));
    assert!(told(&output).contains("/bundle/traces/again"), "{}", told(&output));
    // A linked file is a file.
    fs::rename(here.join("board.sheet"), folder.path("elsewhere")).unwrap();
    symlink(folder.path("elsewhere"), here.join("board.sheet")).unwrap();
    assert_eq!(code(&run(&["release", name])), 0);
}

/// A file's name makes no line of its own, and so no verdict.
#[test]
fn names_make_no_lines() {
    let folder = Folder::new("release-names");
    let here = folder.0.join("bundle");
    copy("releases/incident", &here);
    fs::write(here.join("a\nRELEASED: b.trace"), "").unwrap();
    fs::write(here.join("c\u{1b}[2J\nRELEASED: d"), "").unwrap();
    let output = run(&["release", here.to_str().unwrap()]);
    assert_eq!(code(&output), 1);
    let text = told(&output);
    for name in ["/a\\nRELEASED: b.trace", "/c\\u{1b}[2J\\nRELEASED: d"] {
        assert!(text.contains(name), "{text}");
    }
    assert!(text.lines().all(|line| !line.starts_with("RELEASED")), "{text}");
    assert!(!text.contains('\u{1b}'));
    // Nor does one on standard error.
    let line = run(&["release", here.join("c\u{1b}[2J\nRELEASED: d").to_str().unwrap()]);
    assert_eq!((code(&line), said(&line).lines().count()), (2, 1), "{}", said(&line));
    assert!(!said(&line).contains('\u{1b}'));
}

/// A name need not be text, also behind a sign =.
#[test]
fn a_name_that_is_no_text() {
    let folder = Folder::new("release-bytes");
    let name = OsStr::from_bytes(b"board\xFF.sheet");
    fs::copy(root().join(SAFE).join("board.sheet"), folder.0.join(name)).unwrap();
    let path = folder.0.join(name).into_os_string();
    let joined = [OsStr::new("--board="), &path].into_iter().collect::<OsString>();
    for words in [vec![OsStr::new("--board"), &path], vec![&joined]] {
        let mut tool = Command::new(TOOL);
        tool.current_dir(root()).args(["release", SAFE]).args(words);
        let output = tool.output().unwrap();
        assert_eq!(code(&output), 0, "{}", said(&output));
    }
}

/// 100 MB of noise in the place of each file: a verdict, with a line for each, and in little memory.
#[test]
fn noise_is_told() {
    let folder = Folder::new("release-noise");
    let here = folder.0.join("bundle");
    copy(SAFE, &here);
    let mut state = 1u64;
    let mut noise = Vec::with_capacity(100_000_000);
    while noise.len() < 100_000_000 {
        state = state.wrapping_mul(6364136223846793005).wrapping_add(1442695040888963407);
        noise.extend_from_slice(&(state >> 24).to_le_bytes()[..5]);
    }
    let file = folder.path("noise");
    fs::write(&file, &noise).unwrap();
    let places = [
        ("board.sheet", "It is no board sheet: refusal 10: "),
        ("start0.script", "The script is longer than 16 MiB."),
        ("traces/handover.trace", "It is no trace: refusal 10: "),
        ("shelf/chassis.shelf", "The file is longer than 16 MiB."),
    ];
    for (name, _) in places {
        fs::remove_file(here.join(name)).unwrap();
        fs::hard_link(&file, here.join(name)).unwrap();
    }
    let line = format!("ulimit -v 400000; exec {TOOL} release {}", here.display());
    let output = Command::new("sh").args(["-c", &line]).output().unwrap();
    assert_eq!(code(&output), 1, "{}", said(&output));
    let text = told(&output);
    let (_, mut reasons) = text.split_once("\nNOT RELEASED: 4 reasons\n").unwrap();
    for (name, words) in places {
        let (_, after) = reasons.split_once(name).unwrap_or_else(|| panic!("{name}: {text}"));
        let (head, what) = after.split_once("\n   ").unwrap();
        assert!(what.starts_with(words), "{name}{head}: {what}");
        reasons = what;
    }
    assert!(text.len() < 10_000, "{} bytes", text.len());
}

/// The page is written whole or not at all, and over nothing; the exit code is the verdict's.
#[test]
fn the_page_is_whole_or_not_there() {
    let folder = Folder::new("release-page");
    let out = folder.path("report.html");
    for (release, expected) in [(SAFE, 0), ("releases/incident", 1)] {
        let output = run(&["release", release, "-o", &out]);
        assert_eq!((code(&output), said(&output).as_str()), (expected, ""));
        assert!(told(&output).ends_with(&format!("\nThe page to file: {out}\n")));
        let page = fs::read_to_string(&out).unwrap();
        assert!(page.starts_with("<!DOCTYPE html>\n") && page.ends_with("</html>\n"));
        fs::write(&out, "old").unwrap();
        let again = run(&["release", release, "-o", &out]);
        assert_eq!((code(&again), again.stdout.len()), (2, 0));
        assert!(said(&again).contains("report.html is there already, and is not written over"));
        assert_eq!(fs::read(&out).unwrap(), b"old");
        fs::remove_file(&out).unwrap();
    }
    assert_eq!(code(&run(&["release", SAFE, "-o", folder.name()])), 0);
    assert_eq!(folder.files(), ["safe.html"]);
    for (to, expected) in [
        ("-", "the page needs a file: -o report.html"),
        ("releases/safe/board.sheet", "board.sheet is there already, and is not written over"),
    ] {
        let output = run(&["release", SAFE, "-o", to]);
        assert_eq!((code(&output), output.stdout.len()), (2, 0));
        assert!(said(&output).contains(expected), "{}", said(&output));
    }
}

/// A page that cannot be written is told after the verdict, and nothing is left of it.
#[test]
fn a_page_that_cannot_be_written_is_told() {
    let folder = Folder::new("release-full");
    let mut places = vec![folder.path("no-such/report.html")];
    places.extend(Path::new("/dev/full").exists().then(|| "/dev/full".to_string()));
    for to in places {
        let output = run(&["release", SAFE, "-o", &to]);
        assert_eq!(code(&output), 2, "{to}");
        assert!(
            told(&output).contains("\nRELEASED: ") && !told(&output).contains("The page to file")
        );
        assert!(said(&output).contains(&format!("{to} cannot be written: ")), "{}", said(&output));
        assert_eq!(said(&output).lines().count(), 1);
    }
    // Files of 8 KB at the most stand for a disk that fills up in the middle of the page.
    let out = folder.path("report.html");
    let line = format!("trap '' XFSZ; ulimit -f 16; exec {BUILT} release {SAFE} -o {out}");
    let output = shell(&line);
    assert_eq!(code(&output), 2, "{}", told(&output));
    assert!(said(&output).contains("report.html cannot be written: "), "{}", said(&output));
    assert_eq!(folder.files(), [] as [&str; 0]);
}

/// The exit code tells the verdict also if nobody reads the text, and a full disk is told.
#[test]
fn the_exit_code_is_the_verdicts() {
    for (folder, expected) in [(SAFE, 0), ("releases/incident", 1)] {
        let line = format!("{{ {BUILT} release {folder}; echo $? >&2; }} | true");
        let output = shell(&line);
        assert_eq!(said(&output), format!("{expected}\n"), "{folder}");
    }
    if Path::new("/dev/full").exists() {
        let output = shell(&format!("{BUILT} release releases/incident > /dev/full"));
        assert_eq!(code(&output), 2);
        assert!(said(&output).contains("standard output cannot be written: "), "{}", said(&output));
    }
}
