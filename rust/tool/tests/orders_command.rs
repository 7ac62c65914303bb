//! `gunwaleish orders` as people call it: the samples of `traces/orders/` with what is said of each,
//! exit codes, and files in and out.

mod common;
#[path = "common/rows.rs"]
mod rows;

use std::collections::BTreeSet;
use std::fs;

use common::{code, root, run, said, samples_on, shell, text, Folder, BUILT};

const START: [&str; 2] = ["traces/orders/start0.script", "traces/orders/start1.script"];

#[test]
fn the_samples_say_what_their_page_has() {
    assert_eq!(samples_on("traces/orders/README.md", "orders"), 4);
}

/// The two start-up scripts are those of the order sheets, the others lack a STOP, and the page has
/// every one of them.
#[test]
fn the_samples_are_what_their_page_says() {
    let page = text("traces/orders/README.md");
    let folder = Folder::new("start-up");
    let made = format!("    {BUILT} sheet ");
    let lines: Vec<&str> = page.lines().filter(|line| line.starts_with(&made)).collect();
    assert_eq!(lines.len(), 2);
    for line in lines {
        let here = folder.path("");
        assert_eq!(code(&shell(&line.replace("traces/orders/", &here))), 0, "{line}");
    }
    for name in ["start0.script", "start1.script"] {
        let again = fs::read_to_string(folder.path(name)).unwrap();
        assert_eq!(again, text(&format!("traces/orders/{name}")), "{name}");
    }
    let whole = text(START[1]);
    for (name, at) in [("start1-no-first-stop", 4), ("start1-no-last-stop", 7)] {
        let found = text(&format!("traces/orders/{name}.script"));
        let events = found.lines().filter(|line| !line.starts_with('#'));
        let without = whole.lines().enumerate().filter(|(place, _)| *place != at);
        assert_eq!(whole.lines().nth(at), Some("stop 1"));
        assert!(events.eq(without.map(|(_, line)| line)), "{name}");
    }
    let entries = fs::read_dir(root().join("traces/orders")).unwrap();
    for name in entries.map(|entry| entry.unwrap().file_name().into_string().unwrap()) {
        assert!(name == "README.md" || page.contains(&format!("| `{name}` | ")), "{name}");
    }
}

/// The commands that the person who packages is told, in their order. Outputs under build/ go to a
/// folder of the test's own, and are read from there.
#[test]
fn the_packagers_commands_work() {
    let folder = Folder::new("packager");
    let page = text("docs/ORDERS.md");
    let lines = page.lines().filter(|line| line.starts_with(&format!("    {BUILT} ")));
    let mut ran = 0;
    for line in lines {
        let here = folder.path("");
        let line = line.replace(" build/start", &format!(" {here}/start"));
        let output = shell(&line);
        assert_eq!(code(&output), 0, "{line}: {}", said(&output));
        ran += 1;
    }
    assert!(ran >= 4, "{ran}");
}

/// What the page says of the samples is what the tool says.
#[test]
fn the_packagers_page_has_the_tools_words() {
    let page = text("docs/ORDERS.md");
    let told = String::from_utf8(run(&["orders", START[0], START[1]]).stdout).unwrap();
    let lines: BTreeSet<&str> = told.lines().filter(|line| line.starts_with("in ")).collect();
    assert_eq!(lines.len(), 2);
    for line in lines {
        assert!(page.contains(&format!("{line}\n")), "docs/ORDERS.md lacks: {line}");
    }
}

#[test]
fn exit_codes_are_for_scripts() {
    let forgotten = "traces/orders/start1-no-last-stop.script";
    let good = run(&["orders", START[0], START[1]]);
    assert_eq!((code(&good), said(&good).as_str()), (0, ""));
    let stuck = run(&["orders", START[0], forgotten]);
    assert_eq!((code(&stuck), stuck.stdout.is_empty()), (1, false));
    assert!(said(&stuck)
        .ends_with("in 126 of 462 orders nobody owns the bus, though it is asked for\n"));
    let each = run(&["orders", START[0], forgotten, "--all"]);
    assert_eq!((code(&each), said(&each)), (1, said(&stuck)));
    // One order is written also where nobody owns at its end.
    let one = run(&["orders", START[0], forgotten, "--order", "00001111100"]);
    assert_eq!((code(&one), one.stdout.len()), (0, 7 + 44 + 2));
    let none = run(&["orders", START[0], forgotten, "--order", "0"]);
    assert_eq!((code(&none), none.stdout.len()), (1, 0));
    let long = run(&["orders", START[0], "traces/m1.script"]);
    assert_eq!((code(&long), long.stdout.len()), (1, 0));
}

#[test]
fn wrong_use_is_2() {
    let [a, b] = START;
    let cases: [(&[&str], &str); 15] = [
        (&[a, b, "--strict", "--order", "01"], "--strict is for all orders, and --order is there"),
        (&[a, b, "--csv", "--json"], "--csv and --json are both there"),
        (&[a, b, "--csv", "--all"], "--csv and --json have every order, without --all"),
        (&[a, b, "--json", "--order", "01"], "--order has no rows, and --csv or --json is there"),
        (&[a, b, "--part", "PCA9541"], "'PCA9541' is no part, expected --part PCA9641 or"),
        (&[a, b, "--part"], "--part needs "),
        (&[], "orders needs two files, the script of controller 0 and then that of controller 1"),
        (&[a], "and has 1"),
        (&[a, b, b], "and has 3"),
        (&["-", "-"], "standard input cannot be both scripts"),
        (&[a, "no-such.script"], "no-such.script cannot be read"),
        (&[a, b, "--order"], "--order needs a pattern, such as 000111; gunwaleish"),
        (&[a, b, "--order", "01", "--all"], "--all and --order are both there"),
        (&[a, b, "--script"], "--script needs --order"),
        (&[a, b, "-o", b], "traces/orders/start1.script is an input, and is not written over"),
    ];
    for (arguments, expected) in cases {
        let output = run(&[&["orders"], arguments].concat());
        assert_eq!((code(&output), output.stdout.len()), (2, 0), "{arguments:?}");
        assert!(said(&output).contains(expected), "{arguments:?}: {}", said(&output));
    }
    let sheet = ["sheet", "sheets/board.sheet", "sheets/house.sheet", "--address", "71", "--part"];
    for (words, expected) in [
        (&["PCA9641", "--controller", "0"][..], "--controller needs --script"),
        (&["PCA9641", "--script", "--controller", "2"], "'2' is no controller, 0 or 1"),
    ] {
        let output = run(&[&sheet[..], words].concat());
        assert_eq!(code(&output), 2);
        assert!(said(&output).contains(expected), "{}", said(&output));
    }
}

/// Into a named file, into a folder under script 0's name, and a script out of standard input.
#[test]
fn outputs_go_where_they_should() {
    let folder = Folder::new("orders");
    let to = folder.0.to_str().unwrap();
    let [a, b] = START;
    let words = run(&["orders", a, b]).stdout;
    for options in [
        &["-o", to][..],
        &["--order", "000000111111", "-o", to],
        &["--order", "000000111111", "--script", "-o", to],
    ] {
        let output = run(&[&["orders", a, b], options].concat());
        assert_eq!((code(&output), output.stdout.len()), (0, 0), "{}", said(&output));
    }
    assert_eq!(fs::read(folder.path("start0.txt")).unwrap(), words);
    assert_eq!(fs::read(folder.path("start0.trace")).unwrap().len(), 7 + 48 + 2);
    let script = fs::read_to_string(folder.path("start0.script")).unwrap();
    // The first order is the one that the order sheets have.
    let sheet = "sheet sheets/board.sheet sheets/house.sheet --address 71 --part PCA9641 --script";
    assert_eq!(script, String::from_utf8(shell(&format!("{BUILT} {sheet}")).stdout).unwrap());
    let output = shell(&format!("{BUILT} orders - {b} < {a}"));
    let found = String::from_utf8(output.stdout).unwrap();
    assert!(found.starts_with("924 orders of 6 events (standard input) and 6 events ("), "{found}");
}

/// The incident of the wrong file: one controller's script given twice is refused, with the event.
#[test]
fn the_other_controllers_script_is_refused() {
    let [a, b] = START;
    for (scripts, file, other) in [([a, a], a, 0), ([b, b], b, 1)] {
        let output = run(&["orders", scripts[0], scripts[1]]);
        assert_eq!((code(&output), output.stdout.len()), (1, 0));
        let expected = format!(
            "gunwaleish: {file}, line 3: 'command {other} 03' is an event of controller {other}, "
        );
        assert!(said(&output).starts_with(&expected), "{}", said(&output));
    }
}

/// Orders with a refused event are told; with --strict the exit code is 1.
#[test]
fn refused_events_are_told() {
    let folder = Folder::new("orders-refused");
    let script = folder.path("reset.script");
    std::fs::write(&script, "pins 0 0 0 1\npart PCA9641\nreset\n").unwrap();
    let loose = run(&["orders", START[0], &script]);
    let strict = run(&["orders", START[0], &script, "--strict"]);
    assert_eq!((code(&loose), code(&strict)), (0, 1));
    assert_eq!((&loose.stdout, said(&loose)), (&strict.stdout, said(&strict)));
    assert!(said(&loose).contains(" orders an event is refused; first: 0"), "{}", said(&loose));
    assert_eq!(code(&run(&["orders", START[0], START[1], "--strict"])), 0);
}

/// A row an order, in the sequence in which they are listed.
#[test]
fn a_row_an_order() {
    let [a, b] = START;
    let told = |options: &[&str]| {
        let output = run(&[&["orders", a, b], options].concat());
        assert_eq!((code(&output), said(&output).as_str()), (0, ""));
        String::from_utf8(output.stdout).unwrap()
    };
    let table = rows::csv(&told(&["--csv"]));
    let column = |name| rows::column(&table, name);
    let numbers: Vec<String> = (1..=924).map(|number: usize| number.to_string()).collect();
    assert_eq!(column("order"), numbers);
    let owners = column("owner");
    let owned = ["0", "1"].map(|m| owners.iter().filter(|owner| *owner == m).count());
    assert_eq!(owned, [462, 462]);
    assert_eq!((column("pattern")[25].as_str(), owners[25].as_str()), ("000011111001", "1"));
    assert!(column("ground").iter().all(|ground| ground == "sole requester"));
    assert!(column("nobody_owns").iter().all(|flag| flag == "false"));
    let lines = rows::json_lines(&told(&["--json"]));
    assert_eq!(lines.len(), 924);
    assert_eq!(lines[25].at("pattern").text(), "000011111001");
    assert_eq!(
        (lines[25].at("owner").number(), lines[25].at("waits0")),
        (1, &rows::Read::Bool(true))
    );
    let other = rows::csv(&told(&["--csv", "--part", "TPT29641"]));
    assert!(rows::column(&other, "part").iter().all(|part| part == "TPT29641"));
    assert_eq!(rows::column(&other, "owner"), owners);
    let forgotten = "traces/orders/start1-no-last-stop.script";
    let stuck = run(&["orders", a, forgotten, "--csv"]);
    assert_eq!(code(&stuck), 1);
    let table = rows::csv(&String::from_utf8(stuck.stdout).unwrap());
    let flags = rows::column(&table, "nobody_owns");
    assert_eq!(flags.iter().filter(|flag| *flag == "true").count(), 126);
}
