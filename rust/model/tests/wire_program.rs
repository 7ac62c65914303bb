//! The program `wire_captures`: what it writes, and what it says where it does not.

use std::path::{Path, PathBuf};
use std::process::{Command, Output};
use std::{env, fs};

use model::wire::catalogue::{catalogue, truth};
use model::wire::listen::listen;

/// A folder of this test's own, which is not there yet.
fn folder(name: &str) -> PathBuf {
    let folder = env::temp_dir().join(format!("gunwaleish-{name}-{}", std::process::id()));
    let _ = fs::remove_dir_all(&folder);
    folder
}

fn run(folder: &Path, words: &[&str]) -> Output {
    let program = env!("CARGO_BIN_EXE_wire_captures");
    Command::new(program).arg(folder).args(words).output().unwrap()
}

/// It ends with 2 and says why in one line.
fn assert_refused(output: &Output, why: &str) {
    let said = String::from_utf8_lossy(&output.stderr);
    assert_eq!(output.status.code(), Some(2), "{said}");
    assert!(said.lines().count() == 1 && said.contains(why), "{said}");
}

#[test]
fn captures_are_written_once() {
    let folder = folder("captures");
    let output = run(&folder, &["--only", "story-pair", "--vcd", "--csv"]);
    assert!(output.status.success(), "{}", String::from_utf8_lossy(&output.stderr));
    let said = String::from_utf8_lossy(&output.stdout);
    assert!(said.starts_with("story-pair-pca9641: ") && said.lines().count() == 2, "{said}");
    let mut names: Vec<String> = fs::read_dir(&folder)
        .unwrap()
        .map(|entry| entry.unwrap().file_name().into_string().unwrap())
        .collect();
    names.sort();
    let kinds = ["capture", "csv", "truth", "vcd"];
    let of_part = |part: &str| kinds.map(|kind| format!("story-pair-{part}.{kind}"));
    assert_eq!(names, [of_part("pca9641"), of_part("tpt29641")].concat());
    // Nothing is written over, also where only one of a capture's files is there.
    fs::write(folder.join("story-pair-pca9641.truth"), "mine").unwrap();
    fs::remove_file(folder.join("story-pair-pca9641.vcd")).unwrap();
    assert_refused(&run(&folder, &["--only", "story-pair"]), "is there already");
    assert_eq!(fs::read(folder.join("story-pair-pca9641.truth")).unwrap(), b"mine");
    fs::remove_dir_all(&folder).unwrap();
}

#[test]
fn wrong_use_is_told() {
    let folder = folder("wrong-use");
    assert_refused(&run(&folder, &["--only", "nothing"]), "no capture");
    assert_refused(&run(&folder, &["--seed"]), "usage: ");
    assert_refused(&run(&folder, &["--seed", "x"]), "usage: ");
    assert_refused(&run(&folder, &["--other"]), "usage: ");
    assert_refused(&run(Path::new("--vcd"), &[]), "usage: ");
    assert!(!folder.exists());
    fs::write(&folder, "a file").unwrap();
    assert_refused(&run(&folder, &["--only", "story-pair"]), "wire_captures: ");
    fs::remove_file(&folder).unwrap();
}

/// Every capture of the list is heard as its truth has it, and has a name of its own.
#[test]
fn the_truth_is_what_is_heard() {
    let all = catalogue(7, 2);
    let mut names: Vec<&str> = all.iter().map(|one| one.name.as_str()).collect();
    names.sort();
    names.dedup();
    assert_eq!(names.len(), all.len());
    for one in &all {
        let (name, played) = (&one.name, &one.played);
        let heard = listen(played.setting, &played.samples);
        assert_eq!((&heard.events, &heard.reads), (&played.events, &played.reads), "{name}");
        assert_eq!(heard.faults, played.faults, "{name}");
        let text = truth(played);
        let count = |word: &str| text.lines().filter(|line| line.starts_with(word)).count();
        assert_eq!(count("event "), heard.events.len(), "{name}");
        assert_eq!(count("read "), heard.reads.len(), "{name}");
        assert_eq!(count("fault "), heard.faults.len(), "{name}");
        let first = heard.first_wrong().map_or("none".to_string(), |sample| sample.to_string());
        assert_eq!(text.lines().last(), Some(format!("first-wrong {first}").as_str()), "{name}");
    }
    println!("{} captures", all.len());
}
