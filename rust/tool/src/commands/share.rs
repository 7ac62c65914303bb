//! `share`: how two controllers shared the bus, over many traces.

use std::fs::File;
use std::io::{self, Read};
use std::path::{Path, PathBuf};
use std::thread;

use gunwaleish::MOST_TRACE;

use crate::arguments::Arguments;
use crate::command::{Command, Run};
use crate::each::{output_of, Made};
use crate::failure::Failure;
use crate::files::{self, is_standard, name_of, Input};
use crate::hint::{hint, Kind};
use crate::share::progress::Progress;
use crate::share::stream::{name_in, of_stream};
use crate::share::{kept, of_files, rows, words, Counted};
use crate::table::Form;
use crate::telling::complain;
use crate::walk::find;

pub const COMMAND: Command = Command {
    name: "share",
    summary: "over many traces, the ticks each controller owned the bus, was connected and waited",
    usage: "(PATH... [--threads N] | --stream FILE [--threads N] | --join FILE...)\n       \
            [--table | --csv | --json] [--totals OUT] [-o OUT]",
    help: "A PATH is a trace, or a folder, in which and in whose folders every file that ends in .trace, in\n\
           any letters, is one; what is skipped is told. - is one trace on standard input. With --stream\n\
           the one FILE, or -, holds many traces, each after its length in two bytes, low first.\n\n\
           The output is a line a controller: its number, then the ticks it owned the bus, was\n\
           connected, and waited (its LOCK_REQ stands, and it is not granted). What counts is the\n\
           state after each accepted TICK, so a reserve of 50 ticks that is granted at a STOP shows\n\
           49 owned. --table has the same with per cent of all ticks, the longest wait of each and the\n\
           trace that has it, the ticks nobody owned, and the refused traces by number. --csv and\n\
           --json have a row a trace and a last one for all; docs/FORMATS.md has the columns.\n\n\
           --totals OUT writes the totals to a file besides. --join puts such files together, as if one\n\
           process had counted all their traces: docs/SHARE.md tells how several machines share a night.\n\n\
           A refused trace adds nothing but one to the count of its number, and is told. A stream that\n\
           ends inside a length or a trace has one trace more, refused with 5; so is a length of 0.\n\
           The first 65,535 traces are counted, refused ones included; if there are more, R6 stands\n\
           after the two lines. All processors work on it, or N threads, which changes no figure; nor\n\
           does the order of as many traces as are counted.\n\n\
           Exit code: 0 done, also with refused traces among the others; 1 there is no trace, or none in\n\
           a folder, all are refused, there are more than 65,535, or a file of --join is no totals; 2\n\
           wrong use, or something cannot be read, which is told, or written; what can be read is\n\
           counted, but of --join nothing.",
    options: &[
        ("--stream", 0),
        ("--join", 0),
        ("--table", 0),
        ("--csv", 0),
        ("--json", 0),
        ("--totals", 1),
        ("--threads", 1),
    ],
    example: "build/release/gunwaleish share traces --table",
    run: Run::Alone(run),
};

fn run(arguments: &Arguments) -> Result<(), Failure> {
    let paths = arguments.files.as_slice();
    let has = |name| arguments.options.contains_key(name);
    let report = Report::asked(arguments)?;
    let threads = threads(arguments)?;
    let standard = paths.iter().filter(|path| is_standard(path)).count();
    match (has("--stream"), has("--join"), paths) {
        (true, true, _) => Err(wrong("--stream and --join are both there")),
        (_, true, []) => Err(wrong("--join needs files that --totals wrote")),
        (_, _, []) => Err(wrong("share needs a trace or a folder of traces")),
        _ if standard > 1 => Err(wrong("standard input is there twice")),
        (true, _, [one]) => share_stream(arguments, &report, one, threads),
        (true, _, _) => Err(wrong(&format!("--stream needs one file, and has {}", paths.len()))),
        (_, true, _) => share_joined(arguments, &report),
        _ => share_files(arguments, &report, threads),
    }
}

fn threads(arguments: &Arguments) -> Result<usize, Failure> {
    let Some(word) = arguments.options.get("--threads").and_then(|words| words.first()) else {
        return Ok(thread::available_parallelism().map_or(1, |number| number.get()));
    };
    match word.parse() {
        Ok(number @ 1..=256) => Ok(number),
        _ => Err(wrong(&format!(
            "--threads needs a number of at least 1, 256 at the most, and has '{}'",
            word.escape_debug()
        ))),
    }
}

fn wrong(what: &str) -> Failure {
    Failure::Wrong(format!("{what}; gunwaleish share --help tells more"))
}

/// How the report is written.
#[derive(Clone, Copy, PartialEq, Eq)]
enum Shape {
    Lines,
    Table,
    Rows(Form),
}

/// What is to be written.
struct Report {
    shape: Shape,
    /// The file for the totals.
    totals: Option<PathBuf>,
}

impl Report {
    fn asked(arguments: &Arguments) -> Result<Report, Failure> {
        let table = arguments.options.contains_key("--table");
        let shape = match (Form::asked(COMMAND.name, arguments)?, table) {
            (Some(_), true) => {
                return Err(wrong("--table is for people, and --csv or --json is there"))
            }
            (Some(form), false) => Shape::Rows(form),
            (None, true) => Shape::Table,
            (None, false) => Shape::Lines,
        };
        let totals = arguments.options.get("--totals").and_then(|words| words.first());
        let totals = totals.map(PathBuf::from);
        match &totals {
            Some(path) if is_standard(path) => Err(wrong("--totals needs the name of a file")),
            Some(path) if arguments.output.as_ref() == Some(path) => {
                Err(wrong("--totals and -o name the same file"))
            }
            _ => Ok(Report { shape, totals }),
        }
    }

    fn ending(&self) -> &'static str {
        match self.shape {
            Shape::Lines | Shape::Table => "txt",
            Shape::Rows(form) => form.ending(),
        }
    }

    /// Where the report goes and where the totals go: neither in the place of an input.
    fn outputs(&self, arguments: &Arguments, inputs: &[PathBuf]) -> Result<Outputs, Failure> {
        let report = output_of(inputs, self.ending(), arguments.output.as_deref())?;
        let totals = output_of(inputs, "totals", self.totals.as_deref())?;
        Ok(Outputs { report, totals })
    }
}

struct Outputs {
    report: Option<PathBuf>,
    totals: Option<PathBuf>,
}

fn share_stream(
    arguments: &Arguments,
    report: &Report,
    path: &Path,
    threads: usize,
) -> Result<(), Failure> {
    let outputs = report.outputs(arguments, &arguments.files)?;
    let name = name_of(path);
    let unread = |error| Failure::Wrong(format!("{name} cannot be read: {error}"));
    let mut from: Box<dyn Read> = match is_standard(path) {
        true => {
            files::hint_at_terminal();
            Box::new(io::stdin().lock())
        }
        false => Box::new(File::open(path).map_err(unread)?),
    };
    // The beginning, by which another file is known.
    let mut bytes = vec![];
    from.by_ref().take(MOST_TRACE as u64 + 1).read_to_end(&mut bytes).map_err(unread)?;
    let progress = Progress::new(None);
    let counted = of_stream(bytes.chain(from), &name, threads, &progress);
    progress.end();
    let counted = counted?;
    let input = Input { name, bytes };
    let hint = || hint(&input, Kind::Stream);
    hand_out(report.shape, &counted, &|place| name_in(&input.name, place), &hint, &outputs)
}

fn share_files(arguments: &Arguments, report: &Report, threads: usize) -> Result<(), Failure> {
    let found = find(&arguments.files);
    let inputs: Vec<PathBuf> = arguments.files.iter().chain(&found.files).cloned().collect();
    let outputs = report.outputs(arguments, &inputs)?;
    let progress = Progress::new(Some(found.files.len()));
    let counted = of_files(&found.files, threads, &progress);
    progress.end();
    let (counted, unread) = counted?;
    let failures: Vec<&Failure> = found.failures().chain(&unread).collect();
    found.said.iter().for_each(|line| complain(line));
    failures.iter().for_each(|failure| failure.say());
    let name = |place: usize| name_of(&found.files[place]);
    let handed = hand_out(report.shape, &counted, &name, &String::new, &outputs);
    let Some(code) = failures.iter().map(|failure| failure.code()).max() else {
        return handed;
    };
    let code = handed.map_or_else(
        |failure| {
            failure.say();
            failure.code().max(code)
        },
        |()| code,
    );
    Err(Failure::OfMany { refused: code == 1 })
}

/// Totals that were kept, put together. If one of the files is none, nothing is joined.
fn share_joined(arguments: &Arguments, report: &Report) -> Result<(), Failure> {
    let outputs = report.outputs(arguments, &arguments.files)?;
    let mut counted = Counted::default();
    let mut code = 0;
    for path in &arguments.files {
        if let Err(failure) = join_file(&mut counted, path) {
            failure.say();
            code = code.max(failure.code());
        }
    }
    if code > 0 {
        complain("nothing is joined");
        return Err(Failure::OfMany { refused: code == 1 });
    }
    // Of the traces behind the totals no place is known, and no name.
    hand_out(report.shape, &counted, &|_| String::new(), &String::new, &outputs)
}

fn join_file(counted: &mut Counted, path: &Path) -> Result<(), Failure> {
    let input = files::read(path, kept::MOST_KEPT)?;
    let refused = |why: String| Failure::Refused(format!("{}: {why}", input.name));
    let totals = kept::read(&input.bytes);
    let totals = totals.map_err(|why| refused(format!("{why}{}", hint(&input, Kind::Totals))))?;
    counted.totals.join(&totals).map_err(|refusal| refused(refusal.to_string()))
}

/// Writes the totals and the report. `name` has the name of a place. That there were too many traces, or
/// none that counts, is told as a refusal too, the latter with a hint.
fn hand_out(
    shape: Shape,
    counted: &Counted,
    name: &dyn Fn(usize) -> String,
    hint: &dyn Fn() -> String,
    to: &Outputs,
) -> Result<(), Failure> {
    // A long count is not lost for one file that cannot be written.
    let kept = keep(counted, to.totals.as_deref());
    if shape != Shape::Table {
        words::refused(counted).iter().for_each(|line| complain(line));
    }
    let text = match shape {
        Shape::Lines => words::lines(counted),
        Shape::Table => words::table(counted, name),
        Shape::Rows(form) => rows::rows(counted, name, form),
    };
    let none_taken = || words::none_taken(counted).map(|why| why + &hint());
    let refused = words::past(counted).or_else(none_taken);
    let handed = Made { output: Some(text.into()), refused }.hand_out(to.report.as_deref());
    match (kept, handed) {
        (Ok(()), handed) => handed,
        (Err(failure), Ok(())) => Err(failure),
        (Err(failure), Err(other)) => {
            other.say();
            Err(failure)
        }
    }
}

/// Writes the totals, if they are of all traces.
fn keep(counted: &Counted, to: Option<&Path>) -> Result<(), Failure> {
    let Some(path) = to else {
        return Ok(());
    };
    if counted.past > 0 {
        let why = "is not written, since the totals are not of all traces";
        complain(&format!("{} {why}", files::name_of(path)));
        return Ok(());
    }
    files::write_whole(path, kept::write(&counted.totals).as_bytes())
}
