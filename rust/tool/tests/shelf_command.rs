//! `gunwaleish shelf` as people call it: the samples of `traces/shelf/` with what is said of each, exit
//! codes, and files in and out.

mod common;
#[path = "common/rows.rs"]
mod rows;

use std::fs;

use common::{code, root, run, said, samples_on, shell, text, Folder, BUILT};

const CHASSIS: &str = "traces/shelf/chassis.shelf";
const HANG: &str = "traces/shelf/hang.script";

/// What the tool says of the sample in words, and as a list.
#[test]
fn the_sample_says_what_stands_beside_it() {
    for (options, file) in [(&[][..], "hang.txt"), (&["--list"], "hang.listing")] {
        let output = run(&[&["shelf", CHASSIS, HANG], options].concat());
        assert_eq!((code(&output), said(&output).as_str()), (0, ""));
        let found = String::from_utf8(output.stdout).unwrap();
        assert!(found == text(&format!("traces/shelf/{file}")), "traces/shelf/{file}: {found}");
    }
}

/// In the sample one bus hangs, and at the other three each controller has its turn.
#[test]
fn one_hangs_and_the_others_go_on() {
    let whole = text("traces/shelf/hang.txt");
    let (_, whole) = whole.split_once("\n\n").unwrap();
    let at_the_end: Vec<&str> = whole.lines().take(4).collect();
    let hung: Vec<bool> = at_the_end.iter().map(|line| line.contains("the bus is hung")).collect();
    assert_eq!(hung, [false, true, false, false]);
    let (_, places) = whole.split_once("\n\n").unwrap();
    for place in 0..4 {
        let (_, here) = places.split_once(&format!("place {place}, address 7{place}h")).unwrap();
        let here = here.split("\nplace ").next().unwrap();
        let granted = here.contains("controller 1 is granted the bus");
        assert_eq!((here.contains("the bus is hung"), granted), (place == 1, place != 1));
    }
}

#[test]
fn the_samples_say_what_their_page_has() {
    assert_eq!(samples_on("traces/shelf/README.md", "shelf"), 4);
    let page = text("traces/shelf/README.md");
    let entries = fs::read_dir(root().join("traces/shelf")).unwrap();
    for name in entries.map(|entry| entry.unwrap().file_name().into_string().unwrap()) {
        assert!(name == "README.md" || page.contains(&format!("`{name}`")), "{name}");
    }
}

/// The commands of the page for people work, and the lines that it has are the tool's.
#[test]
fn the_pages_commands_work() {
    let page = text("docs/SHELF.md");
    let start = format!("    {BUILT} ");
    let lines: Vec<&str> = page.lines().filter(|line| line.starts_with(&start)).collect();
    assert_eq!(lines.len(), 3);
    for line in lines {
        // A picture is held to its file elsewhere.
        let output = shell(line.split(" -o ").next().unwrap());
        assert_eq!(code(&output), 0, "{line}: {}", said(&output));
    }
    let told = text("traces/shelf/hang.txt");
    let quoted: Vec<&str> = page.lines().filter(|line| line.starts_with("place ")).collect();
    assert_eq!(quoted.len(), 2);
    assert!(quoted.iter().all(|line| told.contains(&format!("\n{line}\n"))), "{quoted:?}");
}

#[test]
fn wrong_use_is_2() {
    let cases: [(&[&str], &str); 7] = [
        (&[CHASSIS, HANG, "--csv", "--json"], "--csv and --json are both there"),
        (&[], "shelf needs two files, the shelf and then the script, and has 0"),
        (&[CHASSIS], "and has 1"),
        (&[CHASSIS, HANG, HANG], "and has 3"),
        (&["-", "-"], "standard input cannot be both the shelf and the script"),
        (&[CHASSIS, "no-such.script"], "no-such.script cannot be read"),
        (&[CHASSIS, HANG, "-o", CHASSIS], "chassis.shelf is an input, and is not written over"),
    ];
    for (arguments, expected) in cases {
        let output = run(&[&["shelf"], arguments].concat());
        assert_eq!((code(&output), output.stdout.len()), (2, 0), "{arguments:?}");
        assert!(said(&output).contains(expected), "{arguments:?}: {}", said(&output));
    }
}

/// Into a folder under the script's name, and either file out of standard input.
#[test]
fn outputs_go_where_they_should() {
    let folder = std::env::temp_dir().join(format!("gunwaleish-shelf-{}", std::process::id()));
    fs::create_dir_all(&folder).unwrap();
    let to = folder.to_str().unwrap();
    for (options, ending) in [(&[][..], "txt"), (&["--list"], "listing")] {
        let output = run(&[&["shelf", CHASSIS, HANG, "-o", to], options].concat());
        assert_eq!((code(&output), output.stdout.len()), (0, 0), "{}", said(&output));
        let found = fs::read_to_string(folder.join(format!("hang.{ending}"))).unwrap();
        assert_eq!(found, text(&format!("traces/shelf/hang.{ending}")));
    }
    fs::remove_dir_all(&folder).unwrap();
    for line in [format!("- {HANG} --list < {CHASSIS}"), format!("{CHASSIS} - --list < {HANG}")] {
        let output = shell(&format!("{BUILT} shelf {line}"));
        assert_eq!(String::from_utf8(output.stdout).unwrap(), text("traces/shelf/hang.listing"));
    }
}

/// A script for a shelf is none for one device, and the reason is told with its line.
#[test]
fn a_script_for_one_device_has_no_names() {
    let why = "line 4: 'at', expected an event without a name: this script is for one device, and \
               gunwaleish shelf runs one for several\n";
    for arguments in [&["compose", HANG][..], &["orders", HANG, HANG]] {
        let output = run(arguments);
        assert_eq!((code(&output), output.stdout.len()), (1, 0));
        assert!(said(&output).ends_with(why), "{}", said(&output));
    }
}

/// An event that a device refuses: exit code 1, and standard error says which, where and why.
#[test]
fn a_refused_event_is_1() {
    let folder = Folder::new("shelf-refused");
    let script = folder.path("late.script");
    fs::write(&script, "at 71 command 0 01\nat 71 stop 0\nat 71 write 0 05\ntick\n").unwrap();
    for options in [&[][..], &["--list"], &["--csv"], &["--json", "--list"]] {
        let output = run(&[&["shelf", CHASSIS, &script], options].concat());
        assert_eq!((code(&output), output.stdout.is_empty()), (1, false), "{options:?}");
        let why = "line 3, event 3: refused 4: out of sequence (at place 1, address 71h)\n";
        assert_eq!(said(&output), format!("gunwaleish: {script}, {why}"), "{options:?}");
    }
}

/// A row a place, as it stands at the end, or a row an event with its answer.
#[test]
fn rows_of_places_and_of_events() {
    let told = |options: &[&str]| {
        let output = run(&[&["shelf", CHASSIS, HANG], options].concat());
        assert_eq!((code(&output), said(&output).as_str()), (0, ""));
        String::from_utf8(output.stdout).unwrap()
    };
    let places = rows::csv(&told(&["--csv"]));
    let column = |name| rows::column(&places, name);
    assert_eq!(column("address"), ["70", "71", "72", "73"]);
    assert_eq!(column("part"), ["PCA9641", "PCA9641", "TPT29641", "PCA9641"]);
    assert_eq!(column("hung"), ["false", "true", "false", "false"]);
    assert_eq!(column("waits1"), ["false", "true", "false", "false"]);
    assert_eq!(
        (column("owner"), column("refused_events")),
        (vec!["0".to_string(); 4], vec!["0".to_string(); 4])
    );
    assert_eq!(rows::json_lines(&told(&["--json"])).len(), 4);
    let listing = text("traces/shelf/hang.listing");
    let events = rows::json_lines(&told(&["--list", "--json"]));
    assert_eq!(events.len(), listing.lines().count());
    for (number, (event, line)) in events.iter().zip(listing.lines()).enumerate() {
        let (answer, event_text) = line.split_once("  ").unwrap();
        let named = match event.at("for").text() {
            "all" => event.at("what").text().to_string(),
            name => format!("{name} {}", event.at("what").text()),
        };
        assert_eq!(named, event_text);
        let bytes = [event.at("outcome").number(), event.at("byte_read").number()];
        assert_eq!(format!("{:02X}{:02X}", bytes[0], bytes[1]), answer[..4]);
        assert_eq!(event.at("event").number(), number as u64 + 1);
    }
    let typo = run(&["shelf", CHASSIS, "traces/shelf/typo.script", "--list", "--csv"]);
    assert_eq!(code(&typo), 1);
    let table = rows::csv(&String::from_utf8(typo.stdout).unwrap());
    assert_eq!(rows::column(&table, "outcome")[0], "18");
    assert_eq!(rows::column(&table, "owner")[0], "");
}
