//! The manual page and the completion of the shells, held to the table of commands.

mod common;

use std::fs;
use std::process::{Command, Stdio};

use common::{code, run, said, told, Folder, TOOL};

use gunwaleish_tool::commands::COMMANDS;
use gunwaleish_tool::completion::Shell;
use gunwaleish_tool::manual::page;
use gunwaleish_tool::options::{choices, of};
use gunwaleish_tool::version;

/// The page as it is read, without macros and escapes, its words one space apart.
fn read(page: &str) -> String {
    let line = |line: &str| match line.split_once(' ') {
        Some((macro_name, rest)) if macro_name.starts_with('.') => rest.to_string(),
        _ if line.starts_with('.') => String::new(),
        _ => line.strip_prefix("\\&").unwrap_or(line).to_string(),
    };
    let text: Vec<String> = page.lines().map(line).collect();
    plain(&text.join(" ").replace("\\-", "-").replace("\\e", "\\"))
}

fn plain(text: &str) -> String {
    text.split_whitespace().collect::<Vec<_>>().join(" ")
}

/// Everything that the help of a command says stands on the page.
#[test]
fn the_page_has_the_help_of_every_command() {
    let page = page(COMMANDS);
    let text = read(&page);
    for command in COMMANDS {
        assert!(page.contains(&format!("\n.SS {}\n", command.name)), "{}", command.name);
        for part in [command.usage, command.help, command.example] {
            assert!(text.contains(&plain(part)), "{}: {part}", command.name);
        }
        for (option, _) in command.options {
            let macro_line = format!("\n.B {}\n", option.replace('-', "\\-"));
            assert!(page.contains(&macro_line), "{}: {option}", command.name);
        }
    }
    // What stands after an option goes by the command.
    let shelf = |command: &str, after: &str| {
        let (_, own) = page.split_once(&format!("\n.SS {command}\n")).unwrap();
        let own = own.split_once("\n.SS ").map_or(own, |(own, _)| own);
        assert!(own.contains(&format!("\n.B \\-\\-shelf\n{after}\n")), "{own}");
    };
    shelf("release", "Followed by the name of a file.");
    shelf("picture", "Stands alone.");
    assert!(!text.contains("ollowed by a word."), "each option says what stands after it");
    let head = format!(".TH GUNWALEISH 1 \"\" \"{}\" \"User Commands\"\n.SH NAME\n", version::TOOL);
    assert!(page.starts_with(&head));
    assert!(page.ends_with('\n'));
}

/// Every macro is one of man's, so that no line of text is taken for one.
#[test]
fn its_macros_are_known() {
    for line in page(COMMANDS).lines().filter(|line| line.starts_with(['.', '\''])) {
        let name = line.split(' ').next().unwrap();
        assert!([".TH", ".SH", ".SS", ".PP", ".TP", ".B", ".nf", ".fi"].contains(&name), "{line}");
    }
}

/// groff finds nothing wrong in it, and shows what it says.
#[test]
fn groff_shows_the_page() {
    let folder = Folder::new("manual");
    let file = folder.path("gunwaleish.1");
    assert_eq!(code(&run(&["manual", "-o", folder.name()])), 0);
    assert_eq!(fs::read_to_string(&file).unwrap(), page(COMMANDS));
    let mut groff = Command::new("groff");
    let Ok(shown) = groff.args(["-man", "-Tutf8", "-ww", "-P-cbou", &file]).output() else {
        return println!("skipped: groff is not installed");
    };
    assert_eq!((code(&shown), said(&shown).as_str()), (0, ""));
    let text = told(&shown);
    for command in COMMANDS {
        assert!(text.contains(&format!("   {}\n", command.name)), "{}", command.name);
    }
}

#[test]
fn wrong_use_is_2() {
    let cases: [(&[&str], &str); 4] = [
        (&["manual", "x"], "manual reads no file, and has x; gunwaleish manual --help tells more"),
        (&["completion"], "completion needs the name of a shell: bash, zsh or fish; gunwaleish"),
        (&["completion", "ksh"], "'ksh' is none of bash, zsh and fish"),
        (&["completion", "bash", "zsh"], "completion needs the name of a shell"),
    ];
    for (words, expected) in cases {
        let output = run(words);
        assert_eq!((code(&output), output.stdout.len()), (2, 0), "{words:?}");
        assert!(said(&output).contains(expected), "{words:?}: {}", said(&output));
    }
}

/// Each script names every command and each of its options.
#[test]
fn the_scripts_have_the_table() {
    for shell in Shell::ALL {
        let output = run(&["completion", shell.name()]);
        assert_eq!((code(&output), told(&output)), (0, shell.script(COMMANDS)));
        let script = shell.script(COMMANDS);
        let words: Vec<&str> = script.split(|c: char| !c.is_alphanumeric() && c != '-').collect();
        for command in COMMANDS {
            assert!(words.contains(&command.name), "{shell:?}: {}", command.name);
            for (option, _) in command.options {
                let name = if shell == Shell::Fish { &option[2..] } else { option };
                assert!(words.contains(&name), "{shell:?}: {option}");
                assert!(choices(option).iter().all(|word| words.contains(word)), "{option}");
            }
        }
    }
}

/// What bash completes, asked of bash.
#[test]
fn bash_completes() {
    let ask = |words: &[&str]| -> Vec<String> {
        let quoted: Vec<String> = words.iter().map(|word| format!("'{word}'")).collect();
        let line = format!(
            "source <({TOOL} completion bash); COMP_WORDS=({}); COMP_CWORD={}; _gunwaleish; \
             printf '%s\\n' \"${{COMPREPLY[@]}}\"",
            quoted.join(" "),
            words.len() - 1
        );
        let output = Command::new("bash").args(["-c", &line]).output().unwrap();
        assert_eq!(said(&output), "", "{line}");
        told(&output).lines().filter(|line| !line.is_empty()).map(String::from).collect()
    };
    if Command::new("bash").arg("--version").stdout(Stdio::null()).status().is_err() {
        return println!("skipped: bash is not installed");
    }
    assert_eq!(ask(&["gunwaleish", "exp"]), ["explain"]);
    assert_eq!(ask(&["gunwaleish", "help", "deco"]), ["decompose"]);
    assert_eq!(ask(&["gunwaleish", "import", "--part", "T"]), ["TPT29641"]);
    assert_eq!(ask(&["gunwaleish", "completion", "z"]), ["zsh"]);
    assert_eq!(ask(&["gunwaleish", "rel"]), ["release"]);
    assert_eq!(ask(&["gunwaleish", "release", "--without-limit", ""]), ["0", "1", "both"]);
    assert_eq!(ask(&["gunwaleish", "release", "--board", "sh"]), Vec::<String>::new());
    assert_eq!(ask(&["gunwaleish", "explain", "tr"]), Vec::<String>::new(), "files are bash's own");
    for command in COMMANDS.iter().filter(|command| command.name != "completion") {
        let options: Vec<&str> = of(command).collect();
        assert_eq!(ask(&["gunwaleish", command.name, "-"]), options, "{}", command.name);
    }
}

/// The other two read their scripts without complaint, where they are installed.
#[test]
fn zsh_and_fish_read_theirs() {
    let folder = Folder::new("shells");
    for shell in [Shell::Zsh, Shell::Fish] {
        let file = folder.path(shell.name());
        fs::write(&file, shell.script(COMMANDS)).unwrap();
        match Command::new(shell.name()).args(["-n", &file]).output() {
            Ok(read) => assert_eq!((code(&read), said(&read).as_str()), (0, ""), "{shell:?}"),
            Err(_) => println!("skipped: {} is not installed", shell.name()),
        }
    }
}
