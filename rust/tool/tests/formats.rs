//! `docs/FORMATS.md` is what the tool prints: the columns of each command, and the commands on the page.

mod common;
#[path = "common/rows.rs"]
mod rows;

use std::fs;

use common::{code, run, shell, text, told, Folder, BUILT};

use gunwaleish_tool::commands::explain::COLUMNS as EXPLAIN;
use gunwaleish_tool::commands::run::COLUMNS as RUN;
use gunwaleish_tool::share::kept;
use gunwaleish_tool::share::rows::COLUMNS as SHARE;
use gunwaleish_tool::shelf::rows::{EVENTS, PLACES};
use gunwaleish_tool::startup::rows::COLUMNS as ORDERS;
use gunwaleish_tool::table::Columns;
use gunwaleish_tool::watch::rows::COLUMNS as WATCH;

const SHELF: &str = "traces/shelf/chassis.shelf traces/shelf/hang.script";
const CAPTURE: &str = "traces/take-over-early.vcd --address 71 --part PCA9641";
const STARTS: &str = "traces/orders/start0.script traces/orders/start1.script";

/// The columns of each command, by its heading on the page, with a command line that has them.
fn commands() -> [(&'static str, Columns, String); 7] {
    [
        ("share", SHARE, "share traces/m1.trace traces/pair.trace".to_string()),
        ("orders", ORDERS, format!("orders {STARTS}")),
        ("shelf", PLACES, format!("shelf {SHELF}")),
        ("shelf --list", EVENTS, format!("shelf {SHELF} --list")),
        ("run", RUN, "run traces/m1.trace traces/pair.trace".to_string()),
        ("explain", EXPLAIN, "explain traces/m1.trace".to_string()),
        ("watch", WATCH, format!("watch {CAPTURE} --samplerate 400k")),
    ]
}

/// The first cells of the table under a heading.
fn columns_on_page(heading: &str) -> Vec<String> {
    let page = text("docs/FORMATS.md");
    let (_, part) = page.split_once(&format!("\n## `gunwaleish {heading}`\n")).unwrap();
    let part = part.split("\n## ").next().unwrap();
    let cell =
        |line: &str| line.strip_prefix("| `")?.split_once("` | ").map(|(name, _)| name.to_string());
    part.lines().filter_map(cell).collect()
}

#[test]
fn the_page_has_the_columns() {
    let page = text("docs/FORMATS.md");
    assert_eq!(page.matches("\n## `gunwaleish ").count(), commands().len());
    for (heading, columns, line) in commands() {
        assert_eq!(columns_on_page(heading), columns, "{heading}");
        let words: Vec<&str> = line.split(' ').collect();
        let table = rows::csv(&told(&run(&[&words[..], &["--csv"]].concat())));
        assert_eq!(table[0], columns, "{heading}");
        assert!(table.len() > 2 && table.iter().all(|row| row.len() == columns.len()), "{heading}");
        let lines = told(&run(&[&words[..], &["--json"]].concat()));
        assert_eq!(rows::json_lines(&lines).len(), table.len() - 1, "{heading}");
        let first = lines.lines().next().unwrap();
        let places = columns.iter().map(|name| first.find(&format!("\"{name}\":")).expect(name));
        assert!(places.collect::<Vec<_>>().is_sorted(), "{heading}: {first}");
    }
    assert_eq!(SHARE[3..20], kept::NAMES);
}

/// Each command of the page with the words below it.
#[test]
fn the_commands_say_what_the_page_has() {
    let folder = Folder::new("formats");
    let page = text("docs/FORMATS.md");
    let parts: Vec<&str> = page.split(&format!("\n    {BUILT} ")).skip(1).collect();
    assert_eq!(parts.len(), 2);
    for part in parts {
        let (line, rest) = part.split_once("\n\n```\n").unwrap();
        let (expected, _) = rest.split_once("```\n").unwrap();
        let line = line.replace(" build/", &format!(" {}/", folder.name()));
        let output = shell(&format!("{BUILT} {line}"));
        assert_eq!((code(&output), told(&output).as_str()), (0, expected), "{line}");
    }
    assert!(fs::read_to_string(folder.path("run.txt")).unwrap().contains("1 trace, 4 events"));
}
