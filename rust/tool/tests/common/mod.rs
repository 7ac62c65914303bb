//! The tool as people call it, for the tests of its commands. Each of them uses some of this.
#![allow(dead_code)]

use std::fs;
use std::path::{Path, PathBuf};
use std::process::{Command, Output};

pub const TOOL: &str = env!("CARGO_BIN_EXE_gunwaleish");
/// The tool's place in what people read.
pub const BUILT: &str = "build/release/gunwaleish";

pub fn root() -> PathBuf {
    Path::new(env!("CARGO_MANIFEST_DIR")).join("../..")
}

/// Runs the tool at the repository's root.
pub fn run(arguments: &[&str]) -> Output {
    Command::new(TOOL).args(arguments).current_dir(root()).output().unwrap()
}

/// Runs a line of a shell there, with the tool that was built for the test.
pub fn shell(line: &str) -> Output {
    let line = line.replace(BUILT, TOOL);
    Command::new("sh").args(["-c", &line]).current_dir(root()).output().unwrap()
}

pub fn code(output: &Output) -> i32 {
    output.status.code().unwrap()
}

/// What came on standard error.
pub fn said(output: &Output) -> String {
    String::from_utf8(output.stderr.clone()).unwrap()
}

/// What came on standard output.
pub fn told(output: &Output) -> String {
    String::from_utf8(output.stdout.clone()).unwrap()
}

pub fn text(path: &str) -> String {
    fs::read_to_string(root().join(path)).unwrap()
}

/// A folder of a test's own, taken away when the test is over.
pub struct Folder(pub PathBuf);

impl Folder {
    pub fn new(name: &str) -> Folder {
        let path = std::env::temp_dir().join(format!("gunwaleish-{name}-{}", std::process::id()));
        fs::create_dir_all(&path).unwrap();
        Folder(path)
    }

    pub fn name(&self) -> &str {
        self.0.to_str().unwrap()
    }

    pub fn path(&self, name: &str) -> String {
        self.0.join(name).to_str().unwrap().to_string()
    }

    pub fn files(&self) -> Vec<String> {
        let entries = fs::read_dir(&self.0).unwrap();
        let mut names: Vec<String> =
            entries.map(|entry| entry.unwrap().file_name().into_string().unwrap()).collect();
        names.sort();
        names
    }
}

impl Drop for Folder {
    fn drop(&mut self) {
        let _ = fs::remove_dir_all(&self.0);
    }
}

/// Runs each command of a page of samples and holds what it says to the page word for word, and its exit
/// code to the line before it. Gives how many it ran.
pub fn samples_on(page: &str, command: &str) -> usize {
    let page_text = text(page);
    let mut parts = page_text.split(&format!("\n    {BUILT} {command} ")).collect::<Vec<_>>();
    let mut before = parts.remove(0);
    for part in &parts {
        let (line, rest) = part.split_once("\n\n```\n").unwrap();
        let (expected, _) = rest.split_once("```\n").unwrap();
        let output = shell(&format!("{{ {BUILT} {command} {line}; }} 2>&1"));
        let found = told(&output);
        assert!(found == expected, "{page}: {BUILT} {command} {line} says\n{found}");
        let named = format!("The exit code is {}.\n", code(&output));
        assert!(before.ends_with(&named), "{line}: {named}");
        before = part;
    }
    parts.len()
}

/// Runs a line of a shell on a terminal of its own at the repository's root, with the tool's path in $TOOL.
/// Gives the exit code and what the terminal showed, or `None` where the program `script` is not installed.
pub fn in_terminal(line: &str) -> Option<(i32, String)> {
    let mut command = Command::new("script");
    command.args(["-qec", line, "/dev/null"]).current_dir(root());
    command.env("TOOL", TOOL).env("SHELL", "/bin/sh").env_remove("COLUMNS");
    let shown = command.stdin(std::process::Stdio::null()).output().ok()?;
    let text = String::from_utf8(shown.stdout).unwrap().replace('\r', "");
    Some((shown.status.code().unwrap(), text))
}
