//! `explain`: a run in words.

use gunwaleish::{Master, MOST_TRACE};

use crate::arguments::Arguments;
use crate::columns::{Layout, Line};
use crate::command::{Command, Run};
use crate::each::{refused, Each, Made};
use crate::failure::Failure;
use crate::files::Input;
use crate::json::Value;
use crate::story::{follow, Step, Story};
use crate::summary::{self, HOW_COUNTED};
use crate::table::{Columns, Form};
use crate::wrap::paragraph;
use crate::{stuck, words, wrap};

pub const COMMAND: Command = Command {
    name: "explain",
    summary: "the run in words, one event a line, and totals for each controller",
    usage: "[TRACE...] [--csv | --json] [-o OUT]",
    help: "The first lines name the part and what its idle timer and its write pointer do. A line has\n\
           the event's number, the ticks passed, what came, what was answered, then who owns the\n\
           bus, who is connected, who waits, which interrupt outputs are asserted and the levels of\n\
           SCL and SDA, all after the event; then the names of the byte's bits, whether a full\n\
           mailbox drops it, and what changed, a claim with its ground.\n\
           What a controller does begins with its number. Ticks in which nothing changes share a\n\
           line. If one still waits at the end, the last lines say why, whether waiting helps, and\n\
           what else does: docs/RECOVERY.md. Lines are as wide as the terminal, and elsewhere 160\n\
           columns; what is longer goes on below.\n\n\
           --csv and --json give the run to other programs, a row an event: docs/FORMATS.md has the\n\
           columns.",
    options: &[("--csv", 0), ("--json", 0)],
    example: "build/release/gunwaleish explain traces/box14-rt00.trace",
    run: Run::Alone(run),
};

/// A row an event. `docs/FORMATS.md` says what each column has.
pub const COLUMNS: Columns = &[
    "trace",
    "event",
    "tick",
    "bytes",
    "came",
    "outcome",
    "why",
    "byte_read",
    "owner",
    "connected",
    "initialising",
    "claimant",
    "ground",
    "waits0",
    "waits1",
    "int0",
    "int1",
    "scl",
    "sda",
    "hung",
    "dropped0",
    "dropped1",
    "changed",
];

fn run(arguments: &Arguments) -> Result<(), Failure> {
    let width = wrap::width(arguments.output.as_deref());
    let form = Form::asked(COMMAND.name, arguments)?;
    let make = |input: &Input| match form {
        Some(form) => explain_as(input, form),
        None => explain_within(input, width),
    };
    let ending = form.map_or("txt", Form::ending);
    Each { most: MOST_TRACE, ending, make }.run(arguments)
}

/// The run as rows for other programs.
pub fn explain_as(input: &Input, form: Form) -> Made {
    match follow(&input.bytes) {
        Err(refusal) => Made::refused(refused(input, refusal)),
        Ok(story) => {
            Made::done(form.table(COLUMNS, story.steps.iter().map(|step| row(&input.name, step))))
        }
    }
}

fn row(name: &str, step: &Step) -> Vec<Value> {
    let (answer, scene) = (&step.answer, &step.scene);
    let master = |master: Option<Master>| master.map(Master::number);
    let bytes = step.event.bytes().map(|byte| format!("{byte:02X}")).join(" ");
    let changed: Vec<String> = step.changes.iter().map(words::change).collect();
    vec![
        name.into(),
        step.number.into(),
        step.tick.into(),
        bytes.into(),
        words::event(step).into(),
        answer.outcome.number().into(),
        answer.outcome.to_string().into(),
        answer.byte_read.into(),
        master(scene.owner).into(),
        master(scene.connected).into(),
        scene.initialising.into(),
        master(scene.claimant).into(),
        scene.ground.map(|ground| ground.to_string()).into(),
        scene.waits[0].into(),
        scene.waits[1].into(),
        scene.asserted[0].into(),
        scene.asserted[1].into(),
        scene.scl.into(),
        scene.sda.into(),
        scene.hung.into(),
        step.dropped[0].into(),
        step.dropped[1].into(),
        changed.join("; ").into(),
    ]
}

/// The run in words, in lines of the width for a file.
pub fn explain(input: &Input) -> Made {
    explain_within(input, wrap::WIDTH)
}

/// The same in lines of this width, 80 at the least.
pub fn explain_within(input: &Input, width: usize) -> Made {
    match follow(&input.bytes) {
        Err(refusal) => Made::refused(refused(input, refusal)),
        Ok(story) => Made::done(told(&input.name, &story, width)),
    }
}

fn told(name: &str, story: &Story, width: usize) -> String {
    let [device, part] = heads(story);
    let (head, part) = (paragraph(&format!("{name}: {device}"), width), paragraph(&part, width));
    format!("{head}{part}\n{}", body_within(story, width))
}

/// What stands before the lines: the device, and what is to be known of its part.
pub fn heads(story: &Story) -> [String; 2] {
    let device = format!(
        "{} at address {:02X}h, pins {}, {}",
        story.part,
        story.address,
        story.pins,
        words::count(story.steps.len(), "event")
    );
    [device, words::part(story.part)]
}

/// The lines of a run, and its totals.
pub fn body(story: &Story) -> String {
    body_within(story, wrap::WIDTH)
}

fn body_within(story: &Story, width: usize) -> String {
    let lines = lines(story);
    let layout = Layout::of(&lines, width);
    let mut text = layout.head();
    lines.iter().for_each(|line| text.push_str(&layout.row(line)));
    text.push_str(&totals(story, width));
    text
}

fn lines(story: &Story) -> Vec<Line> {
    folded(story).filter_map(line).collect()
}

/// The steps of each line.
pub fn folded(story: &Story) -> impl Iterator<Item = &[Step]> {
    let alike = |a: &Step, b: &Step| a.is_quiet_tick() && b.is_quiet_tick();
    story.steps.chunk_by(alike)
}

/// One event, or several ticks in which nothing changes.
pub fn line(steps: &[Step]) -> Option<Line> {
    let (first, last) = (steps.first()?, steps.last()?);
    let range = |from: usize, to: usize| match from == to {
        true => from.to_string(),
        false => format!("{from}-{to}"),
    };
    let (came, changed) = match first.is_quiet_tick() {
        true if first.tick == last.tick => {
            (format!("tick {}: nothing changes", first.tick), vec![])
        }
        true => (format!("ticks {} to {}: nothing changes", first.tick, last.tick), vec![]),
        false => (words::event(first), remarks(first)),
    };
    Some(Line {
        numbers: range(first.number, last.number),
        ticks: range(first.tick, last.tick),
        came,
        answered: words::outcome(first.answer.outcome),
        scene: first.scene,
        changed: changed.join("; "),
    })
}

/// What the byte's bits are called, in brackets, that it is dropped, and what changed.
pub fn remarks(step: &Step) -> Vec<String> {
    let names = words::meaning(step).map(|names| format!("({names})"));
    let byte = names.into_iter().chain(words::dropped(step));
    byte.chain(step.changes.iter().map(words::change)).collect()
}

fn totals(story: &Story, width: usize) -> String {
    let lines = ends(story).into_iter().map(|line| paragraph(&line, width));
    format!("\n{}", lines.collect::<String>())
}

/// What stands after the lines: the totals, and why one still waits.
pub fn ends(story: &Story) -> Vec<String> {
    let refused = story.steps.iter().filter(|step| step.answer.outcome.is_refused()).count();
    let ticks = story.ticks();
    let all = format!(
        "In all: {}, {}, {refused} refused. {HOW_COUNTED}",
        words::count(ticks, "tick"),
        words::count(story.steps.len() - ticks, "other event"),
    );
    let all = [all].into_iter().chain(summary::in_words(story));
    all.chain(stuck::in_words(story)).collect()
}
