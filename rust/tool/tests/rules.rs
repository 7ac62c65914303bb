//! The scripts of the rule book, `traces/rules/`: the library and the independent model answer each as its listing says, the proved table has
//! these answers, and the pictures are theirs. `docs/RULES.md` is held to the scripts by `rust/house`.

use std::collections::BTreeSet;
use std::fs;
use std::path::{Path, PathBuf};

use gunwaleish_tool::commands::{compose, list, picture};
use gunwaleish_tool::each::Made;
use gunwaleish_tool::files::Input;

#[allow(dead_code)]
#[path = "../examples/rule_rows.rs"]
mod rule_rows;

const TABLE: &str = "crates/rulebook/specs/Rows.antt";

/// A file of the repository.
fn file(path: &str) -> PathBuf {
    Path::new(env!("CARGO_MANIFEST_DIR")).join("../..").join(path)
}

fn output(made: Made) -> Vec<u8> {
    assert_eq!(made.refused, None);
    made.output.unwrap()
}

/// The names of the scripts.
fn names() -> BTreeSet<String> {
    let entries = fs::read_dir(file("traces/rules")).unwrap();
    let names = entries.map(|entry| entry.unwrap().file_name().into_string().unwrap());
    names.filter_map(|name| name.strip_suffix(".script").map(str::to_string)).collect()
}

/// The trace of a script, under its name.
fn composed(name: &str) -> Input {
    let path = format!("traces/rules/{name}.script");
    let bytes = fs::read(file(&path)).unwrap();
    let trace = output(compose::compose(&Input { name: path, bytes }));
    Input { name: format!("build/rules/{name}.trace"), bytes: trace }
}

#[test]
fn each_listing_is_the_librarys_and_the_models() {
    let names = names();
    assert!(names.len() >= 30, "{} scripts", names.len());
    for name in names {
        let trace = composed(&name);
        let stored = fs::read(file(&format!("traces/rules/{name}.listing"))).unwrap();
        assert!(stored == model::listing(&trace.bytes).into_bytes(), "{name}: the model's");
        assert!(stored == output(list::list(&trace)), "{name}: the library's");
    }
}

#[test]
fn the_proved_table_is_written_from_them() {
    let written = rule_rows::table(&file("traces/rules")).unwrap();
    let stored = fs::read_to_string(file(TABLE)).unwrap();
    let differing = written.lines().zip(stored.lines()).find(|(now, then)| now != then);
    assert!(written == stored, "{TABLE} is stale, docs/RULES.md has the command: {differing:?}");
    for name in names() {
        assert!(stored.contains(&format!("\n    -- {name}\n")), "{name}");
    }
}

#[test]
fn the_pictures_are_those_of_the_scripts() {
    for name in names() {
        let drawn = output(picture::picture(&composed(&name)));
        let path = format!("docs/pictures/rules/{name}.svg");
        assert!(
            fs::read(file(&path)).is_ok_and(|stored| stored == drawn),
            "{path} is stale, docs/RULES.md has the command"
        );
    }
}

/// A rule of the second source has the events of the rule without it: their traces differ in the last byte, and their answers differ.
#[test]
fn the_second_source_has_the_same_events() {
    let names = names();
    let seconds: Vec<&str> =
        names.iter().filter_map(|name| name.strip_suffix("-tpt29641")).collect();
    assert_eq!(seconds.len(), 2, "{seconds:?}");
    for name in seconds {
        let (first, second) = (composed(name).bytes, composed(&format!("{name}-tpt29641")).bytes);
        let last = first.len() - 1;
        assert_eq!((&first[..last], first[last], second[last]), (&second[..last], 0, 1), "{name}");
        assert_ne!(model::listing(&first), model::listing(&second), "{name}");
    }
}

/// A script that lost an answer, or whose listing is not there, gives no table.
#[test]
fn no_table_without_every_answer() {
    let folder = std::env::temp_dir().join(format!("gunwaleish-rule-rows-{}", std::process::id()));
    fs::create_dir_all(&folder).unwrap();
    let script = "pins 0 0 0 1\npart TPT29641\ntick 2\nraw FF 00 00 00\n";
    fs::write(folder.join("a.script"), script).unwrap();
    let table = || rule_rows::table(&folder);
    let unread = table();
    fs::write(folder.join("a.listing"), "71 0003\n0000000C\n0000000C\n").unwrap();
    let short = table();
    fs::write(folder.join("a.listing"), "71 0003\n0000000C\n0000000C\n0200000C\n").unwrap();
    let whole = table();
    fs::remove_dir_all(&folder).unwrap();
    assert!(unread.is_err_and(|why| why.contains("a.listing: ")));
    assert_eq!(short.unwrap_err(), "a: 3 events and 2 answers");
    let row = "    -- a\n    (part Tpt29641 does\n    2 ticks 0x0000000C ∷ raw 255 0 0 0 gives 0x0200000C ∷ [])\n    ∷ []\n";
    assert!(whole.unwrap().contains(row));
}
