//! Writes `crates/rulebook/specs/Rows.antt`, the table of the rule book's scripts: each script of the folder that is named, with the
//! answers of the listing beside it, is a row. The table goes to standard output, in the layout of `rt fmt`.

use std::collections::BTreeSet;
use std::path::Path;
use std::{env, fs, process};

use gunwaleish::{Event, Part};
use gunwaleish_tool::script::read_script;

const HEAD: &str = "\
-- The scripts of traces/rules/, each with the answers of its listing, in one table that proofs/Rows.antt proves. It is written from them
-- by the commands of docs/RULES.md, and a test tells when it is stale.
-- Assumes nothing.
use Rattle.std.specs.Prelude.{◌≡◌, List, [], ◌∷◌, map}
use Rattle.arbiter.specs.declared.Kind.TheVariants.{Pca9641, Tpt29641}
use Rattle.arbiter.specs.Marks.{EVENTS}
use Rattle.rulebook.specs.Scripts.{Script, part◌does◌, ◌gives◌, ◌ticks◌, found, told}

unfoldable pub rules : List Script
rules =
";

const FOOT: &str = "    ∷ []

-- what the definitions give every script from power-up of its part is what its listing says
abbrev pub RuleRowsHold : Type 0
RuleRowsHold = map found rules ≡ map told rules
";

/// The events by their names of the marked examples, of which the table takes those that it has.
const EVENTS: [&str; 11] = [
    "raw",
    "command",
    "write",
    "read",
    "stop",
    "pair",
    "lines",
    "tick",
    "pulse",
    "reset",
    "general_call",
];

/// The letters of a line of the table.
const WIDE: usize = 140;

/// The table of a folder's scripts, or why there is none.
pub fn table(folder: &Path) -> Result<String, String> {
    let mut text = String::new();
    for (place, name) in names(folder)?.iter().enumerate() {
        let file = |ending: &str| {
            let path = folder.join(format!("{name}.{ending}"));
            fs::read_to_string(&path).map_err(|error| format!("{}: {error}", path.display()))
        };
        let joint = if place == 0 { "" } else { "∷ " };
        let row =
            row(&file("script")?, &file("listing")?).map_err(|why| format!("{name}: {why}"))?;
        text += &format!("    -- {name}\n    {joint}{row}");
    }
    let code = text.lines().filter(|line| !line.trim_start().starts_with("-- "));
    let words: BTreeSet<&str> =
        code.flat_map(|line| line.split(|c: char| !c.is_alphanumeric() && c != '_')).collect();
    let events: Vec<&str> = EVENTS.into_iter().filter(|event| words.contains(event)).collect();
    Ok(HEAD.replace("EVENTS", &events.join(", ")) + &text + FOOT)
}

/// The names of the scripts in their order.
fn names(folder: &Path) -> Result<BTreeSet<String>, String> {
    let entries = fs::read_dir(folder).map_err(|error| format!("{}: {error}", folder.display()))?;
    let files = entries.filter_map(|entry| entry.ok()?.file_name().into_string().ok());
    Ok(files.filter_map(|name| name.strip_suffix(".script").map(str::to_string)).collect())
}

fn row(script: &str, listing: &str) -> Result<String, String> {
    let script = read_script(script.as_bytes()).map_err(|unread| unread.to_string())?;
    let answers: Vec<&str> = listing.lines().skip(1).collect();
    if answers.len() != script.events.len() {
        return Err(format!("{} events and {} answers", script.events.len(), answers.len()));
    }
    let part = match script.part {
        Part::Pca9641 => "Pca9641",
        Part::Tpt29641 => "Tpt29641",
    };
    let steps: Vec<(Event, &str)> = script.events.into_iter().zip(answers).collect();
    let runs = steps.chunk_by(|one, next| one.0 == Event::Tick && one == next);
    let lines: Vec<String> = runs.map(line).collect();
    Ok(format!("(part {part} does\n{} ∷ [])\n", joined(&lines)))
}

/// TICKs with one answer, or another event and its answer.
fn line(run: &[(Event, &str)]) -> String {
    let (event, answer) = run[0];
    match run.len() {
        1 => format!("{} gives 0x{answer}", term(event)),
        often => format!("{often} ticks 0x{answer}"),
    }
}

/// An event by its name of the marked examples.
fn term(event: Event) -> String {
    let level = u8::from;
    match event {
        Event::Command { master, code } => format!("command {master} 0x{code:02X}"),
        Event::Write { master, value } => format!("write {master} 0x{value:02X}"),
        Event::Read { master } => format!("read {master}"),
        Event::Stop { master } => format!("stop {master}"),
        Event::Pair { value0, value1 } => format!("pair 0x{value0:02X} 0x{value1:02X}"),
        Event::Lines { scl, sda, int_in } => {
            format!("lines {} {} {}", level(scl), level(sda), level(int_in))
        }
        Event::Tick => "tick".to_string(),
        Event::Pulse { sda } => format!("pulse {}", level(sda)),
        Event::Reset => "reset".to_string(),
        Event::GeneralCall { master, code } => format!("general_call {master} 0x{code:02X}"),
        Event::Raw([kind, x, y, z]) => format!("raw {kind} {x} {y} {z}"),
    }
}

/// The lines of a script, as many beside each other as fit.
fn joined(lines: &[String]) -> String {
    let mut text = String::new();
    let mut wide = 0;
    for (place, line) in lines.iter().enumerate() {
        let piece = if place == 0 { line.clone() } else { format!("∷ {line}") };
        let letters = piece.chars().count();
        let fits = wide > 0 && wide + 1 + letters <= WIDE;
        text += if fits {
            " "
        } else if place == 0 {
            "    "
        } else {
            "\n    "
        };
        wide = if fits { wide + 1 + letters } else { 4 + letters };
        text += &piece;
    }
    text
}

fn main() {
    let Some(folder) = env::args().nth(1) else {
        eprintln!("usage: rule_rows FOLDER");
        process::exit(2);
    };
    match table(Path::new(&folder)) {
        Ok(text) => print!("{text}"),
        Err(why) => {
            eprintln!("rule_rows: {why}");
            process::exit(1);
        }
    }
}
