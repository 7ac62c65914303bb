//! `run`: many traces on all cores, and one line of what came of them, or a row a trace.

use std::io::{self, IsTerminal, Write};
use std::path::PathBuf;
use std::time::{Duration, Instant};

use crate::arguments::Arguments;
use crate::command::{Command, Run};
use crate::failure::Failure;
use crate::files::{self, is_standard, name_of};
use crate::json::Value;
use crate::many::{cores, run_all, Came, Tally};
use crate::table::{Columns, Form};
use crate::telling::complain;
use crate::walk::{find, Found};
use crate::words::count;

pub const COMMAND: Command = Command {
    name: "run",
    summary: "folders of traces, run on all cores, and one line of what came of them",
    usage: "PATH... [--csv | --json]",
    help: "A PATH is a trace, or a folder, in which and in whose folders every file that ends in .trace, in\n\
           any letters, is one; what is skipped is told. - is one trace on standard input. They are run\n\
           on all cores, and their answers are dropped. The line at the end has how many traces and\n\
           events there were, how many traces were refused and by what numbers, and the events a\n\
           second, the reading of the files included. Each refused trace is told on standard error. On\n\
           a terminal the progress is shown there meanwhile.\n\n\
           --csv and --json have a row a trace instead, in the order of the names, and the line on\n\
           standard error; docs/FORMATS.md has the columns. Each row of --json is a line of its own, so\n\
           that those of several runs may be put behind each other.\n\n\
           Exit code: 0 all traces ran; 1 some are refused, or a folder has none; 2 wrong use, or a file\n\
           that cannot be read.",
    options: &[("--csv", 0), ("--json", 0)],
    example: "build/release/gunwaleish run traces || echo 'some are refused'",
    run: Run::Alone(run),
};

/// The columns of a row.
pub const COLUMNS: Columns =
    &["trace", "result", "refusal", "address", "part", "events", "refused_events", "why"];

/// So many traces are run before their rows are written, so that a long night needs no more memory
/// than a short one.
const ROWS: usize = 4096;

fn run(arguments: &Arguments) -> Result<(), Failure> {
    if arguments.output.is_some() {
        return Err(wrong("run writes no file, so there is no -o"));
    }
    let form = Form::asked(COMMAND.name, arguments)?;
    let found = traces_of(&arguments.files)?;
    found.said.iter().for_each(|line| complain(line));
    found.failures().for_each(Failure::say);
    let start = Instant::now();
    let tally = run_in_parts(&found.files, form)?;
    let line = closing(&tally, start.elapsed());
    match form {
        None => files::print(&line)?,
        Some(_) => complain(line.trim_end()),
    }
    let failures = tally.failures.iter().map(|(_, failure)| failure).chain(found.failures());
    match failures.map(Failure::code).max() {
        None => Ok(()),
        Some(code) => Err(Failure::OfMany { refused: code == 1 }),
    }
}

/// The traces of these names.
fn traces_of(named: &[PathBuf]) -> Result<Found, Failure> {
    if named.is_empty() {
        return Err(wrong("run needs a folder of traces"));
    }
    if named.iter().filter(|path| is_standard(path)).count() > 1 {
        return Err(wrong("standard input is there twice"));
    }
    Ok(find(named))
}

/// Runs all, and after each part writes its rows and says why some are refused.
fn run_in_parts(paths: &[PathBuf], form: Option<Form>) -> Result<Tally, Failure> {
    let terminal = io::stderr().is_terminal();
    let mut whole = Tally::default();
    let mut done = 0;
    if let Some(form) = form {
        files::print(&form.head(COLUMNS))?;
    }
    for part in paths.chunks(form.map_or(paths.len().max(1), |_| ROWS)) {
        let mut tally = run_all(part, cores(), form.is_some(), |more| {
            if terminal {
                let _ = write!(io::stderr(), "\r{} of {}", done + more, paths.len());
            }
        });
        done += part.len();
        if terminal && (done == paths.len() || !tally.failures.is_empty()) {
            let _ = writeln!(io::stderr(), "\r{done} of {}", paths.len());
        }
        tally.failures.iter().for_each(|(_, failure)| failure.say());
        if let Some(form) = form {
            files::print(&rows(part, &tally, form))?;
        }
        tally.rows.clear();
        whole.add(tally);
    }
    Ok(whole)
}

/// A row a trace.
pub fn rows(paths: &[PathBuf], tally: &Tally, form: Form) -> String {
    let mut failures = tally.failures.iter().peekable();
    let rows = tally.rows.iter().map(|&(place, came)| {
        // Both are in the order of the places.
        let why = failures.next_if(|(failed, _)| *failed == place);
        row(name_of(&paths[place]), came, why.map(|(_, failure)| failure.text()))
    });
    rows.map(|row| form.row(COLUMNS, &row)).collect()
}

fn row(name: String, came: Came, why: Option<String>) -> Vec<Value> {
    let (result, refusal) = match came {
        Came::Ran { .. } => ("ran", None),
        Came::Refused(number) => ("refused", Some(number)),
        Came::Unread => ("unread", None),
    };
    let ran = match came {
        Came::Ran { report, refused } => [
            format!("{:02X}", report.address).into(),
            report.part.name().into(),
            report.events.into(),
            refused.into(),
        ],
        _ => [Value::Null, Value::Null, Value::Null, Value::Null],
    };
    let front = [name.into(), result.into(), refusal.into()];
    front.into_iter().chain(ran).chain([why.into()]).collect()
}

/// The one line: traces, events, refused by number, events a second.
pub fn closing(tally: &Tally, time: Duration) -> String {
    let total: usize = tally.refused.values().sum();
    let each = |(number, count): (&u8, &usize)| format!("{count} with {number}");
    let refused = match total {
        0 => "none refused".to_string(),
        _ => {
            let numbers: Vec<String> = tally.refused.iter().map(each).collect();
            format!("{total} refused ({})", numbers.join(", "))
        }
    };
    let rate = tally.events as f64 / time.as_secs_f64().max(1e-9);
    format!(
        "{}, {}; {refused}; {rate:.0} events a second\n",
        count(tally.traces, "trace"),
        count(tally.events as usize, "event"),
    )
}

fn wrong(what: &str) -> Failure {
    Failure::Wrong(format!("{what}; gunwaleish run --help tells more"))
}
