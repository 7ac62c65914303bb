//! The gate's script, `.ci/run`, with stand-ins for the commands that it runs: whatever falls, it ends with a status that is not 0 and with
//! no verdict as its last line.

use std::fs;
use std::os::unix::fs::PermissionsExt;
use std::path::{Path, PathBuf};
use std::process::Command;

const SCRIPT: &str = concat!(env!("CARGO_MANIFEST_DIR"), "/../../.ci/run");

/// The commands of the gate in their order, each with a name for its stand-in.
const PARTS: [(&str, &str); 6] = [
    ("bin/rt", "rt ci"),
    ("tools/library", "library"),
    ("tools/programs", "programs"),
    ("bin/cargo", "cargo test"),
    ("c/check", "c check"),
    ("tools/lint", "lint"),
];

/// How a run of the gate ended.
struct Ended {
    status: i32,
    last_line: String,
    /// The stand-ins that were run, in their order.
    ran: Vec<String>,
}

/// A folder of its own for one run, removed at the end.
struct Room(PathBuf);

impl Room {
    fn new(name: &str) -> Room {
        let path = std::env::temp_dir().join(format!("gate-{}-{name}", std::process::id()));
        fs::create_dir_all(&path).unwrap();
        Room(path)
    }
}

impl Drop for Room {
    fn drop(&mut self) {
        let _ = fs::remove_dir_all(&self.0);
    }
}

fn write_program(path: &Path, text: &str) {
    fs::create_dir_all(path.parent().unwrap()).unwrap();
    fs::write(path, format!("#!/bin/sh\n{text}\n")).unwrap();
    fs::set_permissions(path, fs::Permissions::from_mode(0o755)).unwrap();
}

/// What `rt ci` says before its verdict where every edit was tried, and where one was bad.
const OK: &str = "rt: ok; handles allowed: none; must-fail edits: 32 refused; every proof and must-fail edit was done in this run";
const BAD: &str = "rt: ok; handles allowed: none; must-fail edits: 31 refused, 1 of them only by a limit, 1 bad; done in this run: 1 of the 98";

/// Runs the gate where `rt ci` prints `verdict` last, and the command at `falls` ends with 1.
fn run_gate(name: &str, verdict: &str, falls: Option<&str>) -> Ended {
    run_gate_after(OK, name, verdict, falls)
}

/// The same where `rt ci` says this before.
fn run_gate_after(before: &str, name: &str, verdict: &str, falls: Option<&str>) -> Ended {
    let room = Room::new(name);
    let script = room.0.join(".ci/run");
    fs::create_dir_all(script.parent().unwrap()).unwrap();
    fs::copy(SCRIPT, &script).unwrap();
    let ran = room.0.join("ran");
    for (path, part) in PARTS {
        // The words that rt is called with are noted too: nothing else than `rt ci` is the gate.
        let (part, said) = match part {
            "rt ci" => ("rt $*", format!("echo '{before}'\necho '{verdict}'")),
            _ => (part, "echo done".to_string()),
        };
        let status = i32::from(falls == Some(path));
        let text = format!("echo \"{part}\" >>'{}'\n{said}\nexit {status}", ran.display());
        write_program(&room.0.join(path), &text);
    }
    let path = format!("{}:{}", room.0.join("bin").display(), std::env::var("PATH").unwrap());
    let output = Command::new("bash").arg(&script).env("PATH", path).output().unwrap();
    let said = String::from_utf8(output.stdout).unwrap();
    Ended {
        status: output.status.code().unwrap(),
        last_line: said.lines().last().unwrap_or_default().to_string(),
        ran: fs::read_to_string(ran).unwrap().lines().map(str::to_string).collect(),
    }
}

fn is_verdict(line: &str) -> bool {
    line.ends_with(" passed, 0 failed")
}

#[test]
fn a_gate_that_passes_ends_with_the_verdict_of_rt_ci() {
    let ended = run_gate("passes", "98 passed, 0 failed", None);
    assert_eq!(ended.status, 0);
    assert_eq!(ended.last_line, "98 passed, 0 failed");
    assert_eq!(ended.ran, PARTS.map(|(_, part)| part.to_string()));
}

#[test]
fn whatever_falls_ends_the_gate_there_without_a_verdict() {
    for (at, (path, part)) in PARTS.into_iter().enumerate() {
        let verdict = if part == "rt ci" { "97 passed, 1 failed" } else { "98 passed, 0 failed" };
        let ended = run_gate(&format!("falls-{at}"), verdict, Some(path));
        assert_ne!(ended.status, 0, "{part}");
        assert!(!is_verdict(&ended.last_line), "{part}: {}", ended.last_line);
        assert!(ended.last_line.starts_with("The gate fell at "), "{part}: {}", ended.last_line);
        assert_eq!(ended.ran.len(), at + 1, "{part}: {:?}", ended.ran);
    }
}

/// A toolchain that falls after it has printed its verdict, one that passes without one, and one that passes with failures.
#[test]
fn the_verdict_and_the_status_of_rt_ci_are_both_asked() {
    for (name, verdict, falls) in [
        ("late", "98 passed, 0 failed", Some("bin/rt")),
        ("silent", "", None),
        ("failures", "97 passed, 1 failed", None),
        ("not-alone", "all 98 passed, 0 failed", None),
    ] {
        let ended = run_gate(name, verdict, falls);
        assert_ne!(ended.status, 0, "{name}");
        assert!(!is_verdict(&ended.last_line), "{name}: {}", ended.last_line);
        assert_eq!(ended.ran, ["rt ci"], "{name}");
    }
}

/// `rt ci` passes with an edit that it cannot apply or read; the gate does not.
#[test]
fn a_bad_edit_ends_the_gate() {
    for (name, said) in [
        ("bad", BAD),
        ("bad-alone", "rt: ok; handles allowed: none; must-fail edits: 0 refused, 12 bad; every"),
        ("not-ok", "rt: nothing is said of edits"),
    ] {
        let ended = run_gate_after(said, name, "98 passed, 0 failed", None);
        assert_ne!(ended.status, 0, "{name}");
        assert!(ended.last_line.starts_with("The gate fell at "), "{name}: {}", ended.last_line);
        assert_eq!(ended.ran, ["rt ci"], "{name}");
    }
    let ended = run_gate_after(
        &OK.replace("32 refused", "32 refused, 0 bad"),
        "none-bad",
        "9 passed, 0 failed",
        None,
    );
    assert_eq!((ended.status, ended.last_line.as_str()), (0, "9 passed, 0 failed"));
}
