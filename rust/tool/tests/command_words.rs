//! The words of a command line: options with a sign =, names that are nearly right, help, terminals, and
//! what becomes of a file that is replaced.

mod common;

use std::fs;
use std::process::Command;

use common::{code, in_terminal, root, run, said, told, Folder, TOOL};

use gunwaleish_tool::commands::COMMANDS;
use gunwaleish_tool::options;

#[test]
fn values_after_a_sign() {
    let capture = "traces/box14.capture";
    let trace = fs::read(root().join("traces/box14.trace")).unwrap();
    let ways: [&[&str]; 3] = [
        &["--address=71", "--part=PCA9641"],
        &["--address=0x71", "--part", "PCA9641"],
        &["--pins=0,0,0,1", "--part=pca9641"],
    ];
    for words in ways {
        let output = run(&[&["import", capture], words].concat());
        assert_eq!((code(&output), &output.stdout), (0, &trace), "{words:?}");
    }
    let cases: [(&[&str], &str); 5] = [
        (&["--pins=0,0,0"], "--pins needs the four codes of AD3, AD2, AD1 and AD0, and has 3"),
        (&["--pins=0"], "and has 1"),
        (&["--part="], "--part needs a part, PCA9641 or TPT29641; gunwaleish import --help"),
        (&["--script=yes"], "--script takes no value; gunwaleish import --help tells more"),
        (&["--adress=71"], "import has no option '--adress' (did you mean --address?)"),
    ];
    for (words, expected) in cases {
        let output = run(&[&["import", capture], words].concat());
        assert_eq!((code(&output), output.stdout.len()), (2, 0), "{words:?}");
        assert!(said(&output).contains(expected), "{words:?}: {}", said(&output));
    }
}

#[test]
fn the_output_in_all_its_ways() {
    let folder = Folder::new("out-words");
    let listing = fs::read(root().join("traces/m1.listing")).unwrap();
    let out = folder.path("a.listing");
    let ways = [
        vec!["-o".to_string(), out.clone()],
        vec![format!("-o{out}")],
        vec!["--output".to_string(), out.clone()],
        vec![format!("--output={out}")],
    ];
    for words in ways {
        let words: Vec<&str> = words.iter().map(String::as_str).collect();
        let output = run(&[&["list", "traces/m1.trace"], &words[..]].concat());
        assert_eq!((code(&output), said(&output)), (0, String::new()), "{words:?}");
        assert_eq!(fs::read(&out).unwrap(), listing, "{words:?}");
        fs::remove_file(&out).unwrap();
    }
    let cases: [(&[&str], &str); 5] = [
        (&["-o"], "-o needs a name after it; gunwaleish list --help tells more"),
        (&["--output="], "--output= needs a name after it"),
        (&["-oa", "--output=b"], "-o is there twice; gunwaleish list --help tells more"),
        (&["-output", "a"], "list has no option '-output' (did you mean --output?)"),
        (&["--ouptut=a"], "list has no option '--ouptut' (did you mean --output?)"),
    ];
    for (words, expected) in cases {
        let output = run(&[&["list", "traces/m1.trace"], words].concat());
        assert_eq!((code(&output), output.stdout.len()), (2, 0), "{words:?}");
        assert!(said(&output).contains(expected), "{words:?}: {}", said(&output));
    }
}

/// A name of a file need not be text.
#[cfg(target_os = "linux")]
#[test]
fn a_joined_name_may_be_any_bytes() {
    use std::ffi::OsStr;
    use std::os::unix::ffi::OsStrExt;
    let folder = Folder::new("any-name");
    let joined = OsStr::from_bytes(b"-o\xFFa");
    let trace = root().join("traces/m1.trace");
    let mut command = Command::new(TOOL);
    let output = command.args(["list"]).arg(trace).arg(joined).current_dir(&folder.0).output();
    assert_eq!(code(&output.unwrap()), 0);
    assert!(folder.0.join(OsStr::from_bytes(b"\xFFa")).is_file());
}

#[test]
fn help_of_a_command() {
    for command in COMMANDS {
        let (asked, named) = (run(&["help", command.name]), run(&[command.name, "--help"]));
        assert_eq!((code(&asked), told(&asked)), (0, told(&named)), "{}", command.name);
    }
    assert_eq!(told(&run(&["help"])), told(&run(&["--help"])));
    let unknown = run(&["help", "sing"]);
    assert_eq!(code(&unknown), 2);
    assert!(said(&unknown).contains("there is no command 'sing'"), "{}", said(&unknown));
}

#[test]
fn names_that_are_nearly_right() {
    let near = [
        ("explian", "explain"),
        ("Explain", "explain"),
        ("pictur", "picture"),
        ("decompos", "decompose"),
        ("lsit", "list"),
        ("share2", "share"),
    ];
    for (word, expected) in near {
        let output = run(&[word]);
        let text =
            format!("there is no command '{word}' (did you mean {expected}?); gunwaleish --help");
        assert!(said(&output).contains(&text), "{}", said(&output));
    }
    for word in ["sing", "x", "", "quarantine"] {
        let output = run(&[word]);
        assert_eq!(code(&output), 2);
        assert!(!said(&output).contains("did you mean"), "{}", said(&output));
    }
    // A name is never taken for another one.
    for command in COMMANDS {
        let names = COMMANDS.iter().map(|command| command.name);
        assert_eq!(options::perhaps(command.name, names), "");
    }
}

#[test]
fn a_number_of_threads() {
    for word in ["0", "257", "many"] {
        let output = run(&["share", "traces", "--threads", word]);
        let text =
            format!("--threads needs a number of at least 1, 256 at the most, and has '{word}'");
        assert_eq!(code(&output), 2);
        assert!(said(&output).contains(&text), "{}", said(&output));
    }
    let output = run(&["share", "traces", "--threads"]);
    assert!(said(&output).contains("--threads needs a number of at least 1; gunwaleish share"));
}

/// What a terminal would obey is escaped, in messages and in what is told.
#[cfg(unix)]
#[test]
fn control_bytes_are_escaped() {
    let folder = Folder::new("control");
    let name = folder.path("a\u{1b}[2J\n.trace");
    fs::copy(root().join("traces/m1.trace"), &name).unwrap();
    let outputs = [
        run(&["explain", &name]),
        run(&["list", &format!("{name}x")]),
        run(&["list", &name, "-o", &name]),
        run(&["a\u{1b}[2Jb"]),
        run(&["list", "--a\u{1b}[2Jb"]),
        run(&["run", &name]),
        run(&["share", &format!("{name}x")]),
    ];
    for output in outputs {
        let all = told(&output) + &said(&output);
        assert!(!all.contains('\u{1b}'), "{all:?}");
    }
    let told = told(&run(&["explain", &name]));
    assert!(told.contains("a\\u{1b}[2J\\n.trace: PCA9641"), "{told}");
    let drawn = run(&["picture", &name]);
    assert!(!String::from_utf8(drawn.stdout).unwrap().contains('\u{1b}'));
}

/// A terminal gets no trace, and a person before it a hint.
#[cfg(unix)]
#[test]
fn a_terminal_is_spared() {
    let Some((code, shown)) = in_terminal("$TOOL compose traces/m1.script") else {
        return println!("skipped: script is not installed (it comes with util-linux)");
    };
    assert_eq!(code, 2, "{shown}");
    assert!(
        shown.contains("what comes out is binary, and standard output is a terminal: -o FILE"),
        "{shown}"
    );
    let (code, shown) = in_terminal("$TOOL compose traces/m1.script | $TOOL explain").unwrap();
    assert_eq!(code, 0, "{shown}");
    assert!(
        shown.contains("PCA9641 at address 70h") && !shown.contains("reading standard"),
        "{shown}"
    );
    let (_, shown) = in_terminal("$TOOL decompose traces/m1.trace").unwrap();
    assert!(shown.contains("part PCA9641\n"), "{shown}");
    let (_, shown) = in_terminal("printf 'pins 0 0 0 0\\n' | $TOOL compose").unwrap();
    assert!(!shown.contains("reading standard input"), "{shown}");
    let (_, shown) = in_terminal("$TOOL explain").unwrap();
    let hint = "gunwaleish: reading standard input, which is this terminal: Ctrl-D ends it; or name a file";
    assert!(shown.contains(hint), "{shown}");
}

/// A file that is replaced keeps its mode, and a new one has what is usual.
#[cfg(unix)]
#[test]
fn the_mode_is_kept() {
    use std::os::unix::fs::PermissionsExt;
    let folder = Folder::new("mode");
    for mode in [0o600, 0o640, 0o664, 0o755] {
        let out = folder.path("a.listing");
        fs::write(&out, "old").unwrap();
        fs::set_permissions(&out, fs::Permissions::from_mode(mode)).unwrap();
        assert_eq!(code(&run(&["list", "traces/m1.trace", "-o", &out])), 0);
        let found = fs::metadata(&out).unwrap().permissions().mode() & 0o7777;
        assert_eq!(found, mode, "{found:o}");
        assert_eq!(fs::read(&out).unwrap(), fs::read(root().join("traces/m1.listing")).unwrap());
    }
}

/// A folder with the tool, a trace, and in it a folder in which no file can be made: there a file that can
/// be written to and one that cannot.
#[cfg(unix)]
fn shut_folder() -> Folder {
    use std::os::unix::fs::PermissionsExt;
    let folder = Folder::new("shut");
    // Copied by a program of its own: a file that this process has open for writing cannot be run while another test starts a program, which has it too.
    assert!(Command::new("cp").arg(TOOL).arg(folder.path("tool")).status().unwrap().success());
    fs::copy(root().join("traces/m1.trace"), folder.path("m1.trace")).unwrap();
    fs::create_dir(folder.path("shut")).unwrap();
    let long = "old and longer than what comes, ".repeat(9);
    fs::write(folder.path("shut/open.listing"), long).unwrap();
    fs::write(folder.path("shut/closed.listing"), "old").unwrap();
    let modes = [
        ("tool", 0o755),
        ("m1.trace", 0o644),
        ("shut/open.listing", 0o666),
        ("shut/closed.listing", 0o444),
        ("shut", 0o555),
    ];
    for (name, mode) in modes {
        fs::set_permissions(folder.path(name), fs::Permissions::from_mode(mode)).unwrap();
    }
    folder
}

/// What can be written to is replaced there, the other one is not, and nothing is left beside them.
#[cfg(unix)]
#[test]
fn a_file_in_a_shut_folder() {
    use std::os::unix::fs::MetadataExt;
    use std::os::unix::process::CommandExt;
    let folder = shut_folder();
    // Who may do everything is kept from nothing, so another one has to try.
    let (all, nobody) = (fs::metadata(&folder.0).unwrap().uid() == 0, 65_534);
    let list = |out: &str| {
        let mut command = Command::new(folder.path("tool"));
        command.args(["list", "m1.trace", "-o", out]).current_dir(&folder.0);
        if all {
            command.uid(nobody).gid(nobody);
        }
        command.output().unwrap()
    };
    let output = list("shut/open.listing");
    assert_eq!((code(&output), said(&output)), (0, String::new()));
    let listing = fs::read(root().join("traces/m1.listing")).unwrap();
    assert_eq!(fs::read(folder.path("shut/open.listing")).unwrap(), listing);
    assert_eq!(code(&list("shut/closed.listing")), 2);
    assert_eq!(fs::read(folder.path("shut/closed.listing")).unwrap(), b"old");
    let new = list("shut/new.listing");
    assert_eq!(code(&new), 2);
    assert!(said(&new).contains("shut/new.listing cannot be written: "), "{}", said(&new));
    assert_eq!(fs::read_dir(folder.path("shut")).unwrap().count(), 2);
}
