//! `picture`: a run as a timeline to look at, in the format SVG.

use std::ops::Range;
use std::path::PathBuf;

use gunwaleish::MOST_TRACE;

use super::compose::MOST_TEXT;
use super::shelf::run_both;
use crate::arguments::Arguments;
use crate::command::{Command, Run};
use crate::each::{output_of, refused, Each, Made};
use crate::failure::Failure;
use crate::files::{self, is_standard, Input};
use crate::many::cores;
use crate::picture::{self, draw, Source, Spots};
use crate::share::of_files;
use crate::share::progress::Progress;
use crate::share::words::past;
use crate::story::{follow, Story};
use crate::telling::complain;
use crate::walk::find;

pub const COMMAND: Command = Command {
    name: "picture",
    summary: "the run as a timeline to look at (SVG)",
    usage: "[TRACE...] [--from TICK] [--to TICK] [-o OUT]\n       \
            gunwaleish picture --shelf SHELF SCRIPT [-o OUT]\n       \
            gunwaleish picture --share PATH... [-o OUT]",
    help: "A lane for each controller shows when it waits, owns the bus and is connected, and its\n\
           interrupt output. A lane for the bus shows SCL and SDA, an initialisation, and where the\n\
           bus is hung. Ticks are below; the events between two ticks are set apart on a darker\n\
           ground, though they take no time. What is refused has a red cross, and a byte that a full\n\
           mailbox drops a triangle. In a browser, the pointer on an event or a bar shows it in words.\n\n\
           A picture is as wide as an A4 page in landscape. A long run goes on in strips below each\n\
           other, none of which lies across two pages, and in it ticks in which nothing changes are\n\
           folded. --from and --to show a part of the run: what comes from when so many ticks have\n\
           passed until so many have. The totals are those of the whole run.\n\n\
           --shelf draws a shelf instead, as gunwaleish shelf runs a script over it: a row a device.\n\
           --share draws the bus share over many traces, as gunwaleish share counts it: bars a\n\
           controller, of all ticks.",
    options: &[("--from", 1), ("--to", 1), ("--shelf", 0), ("--share", 0)],
    example: "build/release/gunwaleish picture traces/box14-rt00.trace -o build/box14-rt00.svg",
    run: Run::Alone(run),
};

/// The ticks between which a run is shown.
#[derive(Clone, Copy, Debug, Default, PartialEq, Eq)]
pub struct Window {
    pub from: Option<usize>,
    pub to: Option<usize>,
}

impl Window {
    /// The steps of a run that it shows.
    fn steps(self, story: &Story) -> Range<usize> {
        let from = self.from.unwrap_or(0);
        let start = story.steps.partition_point(|step| step.tick < from);
        let end = self
            .to
            .map_or(story.steps.len(), |to| story.steps.partition_point(|step| step.tick <= to));
        start..end.max(start)
    }
}

fn run(arguments: &Arguments) -> Result<(), Failure> {
    let has = |name| arguments.options.contains_key(name);
    let part = has("--from") || has("--to");
    match (has("--shelf"), has("--share")) {
        (true, true) => Err(wrong("--shelf and --share are both there")),
        (false, false) => run_traces(arguments),
        _ if part => Err(wrong("--from and --to show a part of a trace, and no other")),
        (true, _) => run_shelf(arguments),
        (_, true) => run_share(arguments),
    }
}

fn run_traces(arguments: &Arguments) -> Result<(), Failure> {
    let window = Window { from: tick(arguments, "--from")?, to: tick(arguments, "--to")? };
    if let (Some(from), Some(to)) = (window.from, window.to) {
        if from > to {
            return Err(wrong(&format!("--from {from} is after --to {to}")));
        }
    }
    let make = |input: &Input| picture_of(input, window);
    Each { most: MOST_TRACE, ending: "svg", make }.run(arguments)
}

/// The number after --from or --to.
fn tick(arguments: &Arguments, name: &str) -> Result<Option<usize>, Failure> {
    let Some(word) = arguments.options.get(name).and_then(|words| words.first()) else {
        return Ok(None);
    };
    let digits = word.bytes().all(|byte| byte.is_ascii_digit());
    let number = word.parse().ok().filter(|_| digits);
    let shown = word.escape_debug();
    number
        .map(Some)
        .ok_or_else(|| wrong(&format!("{name} needs a number of ticks, and has '{shown}'")))
}

fn wrong(what: &str) -> Failure {
    Failure::Wrong(format!("{what}; gunwaleish picture --help tells more"))
}

/// The picture of a whole run.
pub fn picture(input: &Input) -> Made {
    picture_of(input, Window::default())
}

pub fn picture_of(input: &Input, window: Window) -> Made {
    match drawn(input, window) {
        Ok((_, picture, _)) => Made::done(picture),
        Err(why) => Made::refused(why),
    }
}

/// The run, its picture, and where the steps stand in it; or why there is none.
pub fn drawn(input: &Input, window: Window) -> Result<(Story, String, Spots), String> {
    let story = follow(&input.bytes).map_err(|refusal| refused(input, refusal))?;
    let steps = window.steps(&story);
    if steps.is_empty() && window != Window::default() {
        let (name, ticks) = (&input.name, story.ticks());
        return Err(format!("{name}: nothing to show there; the run has {ticks} ticks"));
    }
    let source = Source { name: input.name.clone(), size: input.bytes.len() };
    let (picture, spots) = draw(&story, &source, steps);
    Ok((story, picture, spots))
}

fn run_shelf(arguments: &Arguments) -> Result<(), Failure> {
    let [shelf, script] = arguments.files.as_slice() else {
        let count = arguments.files.len();
        let what =
            format!("--shelf needs two files, the shelf and then the script, and has {count}");
        return Err(wrong(&what));
    };
    if is_standard(shelf) && is_standard(script) {
        return Err(wrong("standard input cannot be both the shelf and the script"));
    }
    // In a folder the picture has the script's name, since one shelf serves many scripts.
    let inputs = [script.clone(), shelf.clone()];
    let output = output_of(&inputs, "svg", arguments.output.as_deref())?;
    let read = |path| files::read(path, MOST_TEXT);
    let (shelf, script) = (read(shelf)?, read(script)?);
    let shelved = run_both(&shelf, &script).map_err(Failure::Refused)?;
    let source = |input: &Input| Source { name: input.name.clone(), size: input.bytes.len() };
    let drawn = picture::shelf::draw(&shelved, &[source(&shelf), source(&script)]);
    Made::done(drawn).hand_out(output.as_deref())
}

/// Why no share is drawn.
pub const NO_TICK: &str = "there is no tick in these traces, and nothing to draw";

/// Of files and folders. What cannot be read is told, and the others are counted.
fn run_share(arguments: &Arguments) -> Result<(), Failure> {
    if arguments.files.is_empty() {
        return Err(wrong("--share needs a trace or a folder of traces"));
    }
    let found = find(&arguments.files);
    let inputs: Vec<PathBuf> = arguments.files.iter().chain(&found.files).cloned().collect();
    let output = output_of(&inputs, "svg", arguments.output.as_deref())?;
    let progress = Progress::new(Some(found.files.len()));
    let (counted, unread) = of_files(&found.files, cores(), &progress)?;
    progress.end();
    let failures: Vec<&Failure> = found.failures().chain(&unread).collect();
    found.said.iter().for_each(|line| complain(line));
    failures.iter().for_each(|failure| failure.say());
    if counted.totals.ticks() == 0 {
        return Err(Failure::Refused(NO_TICK.to_string()));
    }
    let names: Vec<String> = arguments.files.iter().map(|path| files::name_of(path)).collect();
    let drawn = picture::share::draw(&counted.totals, &named(&names));
    Made { output: Some(drawn.into()), refused: past(&counted) }.hand_out(output.as_deref())?;
    match failures.iter().map(|failure| failure.code()).max() {
        None => Ok(()),
        Some(code) => Err(Failure::OfMany { refused: code == 1 }),
    }
}

/// The names of what was counted, or the first and how many more there are.
pub fn named(names: &[String]) -> String {
    match names {
        [first, others @ ..] if others.len() > 1 => format!("{first} and {} more", others.len()),
        _ => names.join(" and "),
    }
}
