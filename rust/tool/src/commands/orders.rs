//! `orders`: two start-up scripts in all the orders that keep each script's own order.

use gunwaleish::{Event, Master, Part, Refusal, MOST_SCRIPT};

use super::compose::MOST_TEXT;
use crate::arguments::Arguments;
use crate::command::{Command, Run};
use crate::device::read_part;
use crate::each::{output_of, Made};
use crate::failure::Failure;
use crate::files::{self, is_standard, Input};
use crate::hint::{hint, Kind};
use crate::script::{line_of, read_script, warnings, write_script, Script};
use crate::startup::{rows, words, Ending, Pattern, Scripts, PART};
use crate::table::Form;
use crate::telling::complain;
use crate::words::count;

pub const COMMAND: Command = Command {
    name: "orders",
    summary: "two start-up scripts, tried in all orders: who owns the bus at the end",
    usage: "SCRIPT0 SCRIPT1 [--all | --csv | --json | --order PATTERN [--script]]\n       \
            [--part NAME] [--strict] [-o OUT]",
    help: "SCRIPT0 and SCRIPT1 are the start-up scripts of controllers 0 and 1, up to six events each, as\n\
           gunwaleish compose reads them, for the same pins and a PCA9641; tick 3 is three events. A\n\
           script with an event of the other controller is refused; pair is of both. They are tried in\n\
           all the orders that keep each script's own order, each from power-up. A pattern names an\n\
           order: a 0 is the next event of script 0, a 1 the next one of script 1.\n\n\
           The output says in how many orders each controller owns the bus at the end, on what ground,\n\
           and who waits, with the first such order. Set apart are those in which nobody owns the bus\n\
           though somebody asks, with the reason. Orders in which an event is refused are told on\n\
           standard error too. --all has every order on a line before that. --csv and --json have a row\n\
           an order and nothing else; docs/FORMATS.md has the columns.\n\n\
           --part TPT29641 tries them on that part, whatever the scripts name. What is proved of all\n\
           orders is of a PCA9641; on the other part each order goes by the library's steps.\n\n\
           --order PATTERN writes that order instead, as a trace for gunwaleish explain, or with\n\
           --script as a script.\n\n\
           Exit code: 0 done; 1 a script is refused, or in some order nobody owns the bus though\n\
           somebody asks, or with --strict an event is refused: standard error says which; 2 wrong\n\
           use, or a file that cannot be read or written.",
    options: &[
        ("--all", 0),
        ("--csv", 0),
        ("--json", 0),
        ("--order", 1),
        ("--script", 0),
        ("--part", 1),
        ("--strict", 0),
    ],
    example: "build/release/gunwaleish orders traces/orders/start0.script traces/orders/start1.script",
    run: Run::Alone(run),
};

/// What is to be made of the two scripts.
#[derive(Clone, Debug, PartialEq, Eq)]
pub enum Wanted {
    Groups,
    /// Each order too.
    All,
    /// A row an order, for other programs.
    Rows(Form),
    /// The order of this pattern, as a trace or as a script.
    Trace(String),
    Script(String),
}

impl Wanted {
    /// The ending of its name in a folder.
    fn ending(&self) -> &'static str {
        match self {
            Wanted::Groups | Wanted::All => "txt",
            Wanted::Rows(form) => form.ending(),
            Wanted::Trace(_) => "trace",
            Wanted::Script(_) => "script",
        }
    }
}

/// How the orders are tried.
#[derive(Clone, Copy, Debug, Default, PartialEq, Eq)]
pub struct How {
    /// The part that the command line names. Without it both scripts have to name a PCA9641.
    pub part: Option<Part>,
    /// An order in which an event is refused is told as a refusal.
    pub strict: bool,
}

fn run(arguments: &Arguments) -> Result<(), Failure> {
    let [script0, script1] = arguments.files.as_slice() else {
        let count = arguments.files.len();
        return Err(wrong(&format!(
            "orders needs two files, the script of controller 0 and then that of controller 1, and \
             has {count}"
        )));
    };
    if is_standard(script0) && is_standard(script1) {
        return Err(wrong("standard input cannot be both scripts"));
    }
    let wanted = wanted(arguments)?;
    let part = arguments.options.get("--part").and_then(|words| words.first());
    let part =
        part.map(|word| read_part(word).map_err(|what| wrong(&what.to_string()))).transpose()?;
    let how = How { part, strict: arguments.options.contains_key("--strict") };
    let output = output_of(&arguments.files, wanted.ending(), arguments.output.as_deref())?;
    let read = |path| files::read(path, MOST_TEXT);
    let (script0, script1) = (read(script0)?, read(script1)?);
    [&script0, &script1].into_iter().for_each(warnings::tell);
    let (made, said) = tried(&script0, &script1, &wanted, how);
    said.iter().for_each(|line| complain(line));
    made.hand_out(output.as_deref())
}

fn wanted(arguments: &Arguments) -> Result<Wanted, Failure> {
    let has = |name| arguments.options.contains_key(name);
    let pattern = arguments.options.get("--order").and_then(|words| words.first()).cloned();
    let form = Form::asked(COMMAND.name, arguments)?;
    match (pattern, has("--script"), has("--all"), form) {
        (Some(_), _, true, _) => Err(wrong("--all and --order are both there")),
        (Some(_), ..) if has("--strict") => {
            Err(wrong("--strict is for all orders, and --order is there"))
        }
        (Some(_), _, _, Some(_)) => Err(wrong("--order has no rows, and --csv or --json is there")),
        (Some(pattern), false, ..) => Ok(Wanted::Trace(pattern)),
        (Some(pattern), true, ..) => Ok(Wanted::Script(pattern)),
        (None, true, ..) => Err(wrong("--script needs --order")),
        (None, _, true, Some(_)) => Err(wrong("--csv and --json have every order, without --all")),
        (None, _, _, Some(form)) => Ok(Wanted::Rows(form)),
        (None, _, true, None) => Ok(Wanted::All),
        (None, _, false, None) => Ok(Wanted::Groups),
    }
}

fn wrong(what: &str) -> Failure {
    Failure::Wrong(format!("{what}; gunwaleish orders --help tells more"))
}

pub fn orders(script0: &Input, script1: &Input, wanted: &Wanted, how: How) -> Made {
    tried(script0, script1, wanted, how).0
}

/// What is made, and what is said besides.
pub fn tried(
    script0: &Input,
    script1: &Input,
    wanted: &Wanted,
    how: How,
) -> (Made, Option<String>) {
    let names = [script0.name.as_str(), script1.name.as_str()];
    let made = read_both(script0, script1, how).and_then(|scripts| match wanted {
        Wanted::Groups | Wanted::All | Wanted::Rows(_) => told(names, &scripts, wanted, how),
        Wanted::Trace(word) => {
            let pattern = pattern(names, &scripts, word)?;
            let trace = scripts.trace(&pattern).map_err(|r| refused(names, &scripts, r))?;
            Ok((Made::done(trace), None))
        }
        Wanted::Script(word) => {
            let order = scripts.order(&pattern(names, &scripts, word)?);
            Ok((Made::done(write_script(scripts.pins, scripts.part, &order)), None))
        }
    });
    made.unwrap_or_else(|why| (Made::refused(why), None))
}

/// All orders. Such as leave nobody the owner, though somebody asks, are told as a refusal too; such as
/// have a refused event are told besides, or are a refusal where that is asked for.
fn told(
    names: [&str; 2],
    scripts: &Scripts,
    wanted: &Wanted,
    how: How,
) -> Result<(Made, Option<String>), String> {
    let refused = |refusal: Refusal| refused(names, scripts, refusal);
    let endings = scripts.endings().map_err(refused)?;
    let text = match wanted {
        Wanted::Rows(form) => rows::rows(&endings, scripts.part, *form),
        _ => in_words(names, scripts, &endings, *wanted == Wanted::All).map_err(refused)?,
    };
    let of_both = |some: String| format!("{}, {}: {some}", names[0], names[1]);
    let stuck = words::stuck(&endings);
    let stuck = stuck.map(|some| format!("{some} nobody owns the bus, though it is asked for"));
    let events = words::refused(&endings);
    let (why, said) = match how.strict {
        true => (stuck.into_iter().chain(events).collect::<Vec<_>>(), None),
        false => (stuck.into_iter().collect(), events),
    };
    let why = (!why.is_empty()).then(|| of_both(why.join("; ")));
    Ok((Made { output: Some(text.into()), refused: why }, said.map(of_both)))
}

fn in_words(
    names: [&str; 2],
    scripts: &Scripts,
    endings: &[Ending],
    each: bool,
) -> Result<String, Refusal> {
    let groups = scripts.groups(endings)?;
    let mut text = words::head(names, scripts.lengths(), scripts.part, endings.len());
    if each {
        text.push_str(&format!("\n{}", words::each(endings)));
    }
    text.push_str(&format!("\n{}", words::told(endings, &groups)));
    text.push_str(&replay(names, scripts.part, endings));
    Ok(text)
}

/// How an order is told event by event.
fn replay(names: [&str; 2], part: Part, endings: &[Ending]) -> String {
    let stuck = endings.iter().find(|ending| ending.is_stuck());
    let Some(ending) = stuck.or(endings.first()).filter(|_| endings.len() > 1) else {
        return String::new();
    };
    let word = |name| if name == files::name_of("-".as_ref()) { "-" } else { name };
    let [script0, script1] = names.map(word);
    let on = if part == PART { String::new() } else { format!(" --part {part}") };
    format!(
        "\nA 0 is the next event of script 0, a 1 the next one of script 1. Event by event:\n    \
         gunwaleish orders {script0} {script1}{on} --order {} | gunwaleish explain\n",
        ending.pattern
    )
}

/// The order that a word names.
fn pattern(names: [&str; 2], scripts: &Scripts, word: &str) -> Result<Pattern, String> {
    // The library says whether the two scripts have orders at all.
    scripts.endings().map_err(|refusal| refused(names, scripts, refusal))?;
    let [events0, events1] = scripts.lengths();
    Pattern::read(word, scripts.lengths()).ok_or_else(|| {
        format!(
            "'{}' is no order of {} and {}: a pattern has {events0} of 0 and {events1} of 1",
            word.escape_debug(),
            names[0],
            names[1]
        )
    })
}

/// Reads the two scripts. Both have to be for one and the same device.
fn read_both(script0: &Input, script1: &Input, how: How) -> Result<Scripts, String> {
    let first = read_one(script0, Master::Zero, how)?;
    let second = read_one(script1, Master::One, how)?;
    if first.pins != second.pins {
        return Err(format!(
            "{}, line {}: pins {}, but {}, line {}: pins {}; both scripts are for one device",
            script0.name, first.pins_line, first.pins, script1.name, second.pins_line, second.pins
        ));
    }
    let part = how.part.unwrap_or(PART);
    Ok(Scripts { pins: first.pins, part, events: [first.events, second.events] })
}

fn read_one(input: &Input, controller: Master, how: How) -> Result<Script, String> {
    // Of a longer one not all was read.
    if input.bytes.len() > MOST_TEXT {
        return Err(format!("{}: the script is longer than 16 MiB", input.name));
    }
    let unread = |unread| format!("{}, {unread}{}", input.name, hint(input, Kind::Script));
    let script = read_script(&input.bytes).map_err(unread)?;
    if let Err(refusal) = script.pins.address() {
        return Err(format!("{}, line {}: {refusal}", input.name, script.pins_line));
    }
    if how.part.is_none() && script.part != PART {
        return Err(format!(
            "{}: part {}, but all orders are tried on a {PART}; --part {1} tries them on that one, and \
             --part {PART} tries the events as they are",
            input.name, script.part
        ));
    }
    let mut events = script.events.iter().zip(&script.lines);
    match events.find(|(&event, _)| sender(event) == Some(controller.partner())) {
        None => Ok(script),
        Some((&event, line)) => Err(format!(
            "{}, line {line}: '{}' is an event of controller {}, in the script of controller \
             {controller}; controller 0's script comes first, and then controller 1's",
            input.name,
            line_of(event, 1),
            controller.partner(),
        )),
    }
}

/// Whose event it is, if it is one controller's alone.
fn sender(event: Event) -> Option<Master> {
    // Bytes that are written out may be those of a kind.
    match Event::from(event.bytes()) {
        Event::Command { master, .. }
        | Event::Write { master, .. }
        | Event::Read { master }
        | Event::Stop { master }
        | Event::GeneralCall { master, .. } => Some(master),
        _ => None,
    }
}

/// Why the two scripts have no orders: number and words, and which script it is.
fn refused(names: [&str; 2], scripts: &Scripts, refusal: Refusal) -> String {
    let long = |script: usize| {
        let events = scripts.lengths()[script];
        let said = format!("{} has {}", names[script], count(events, "event"));
        (refusal == Refusal::LongScript && events > MOST_SCRIPT).then_some(said)
    };
    let long: Vec<String> = [0, 1].into_iter().filter_map(long).collect();
    let place = if long.is_empty() { String::new() } else { format!(" ({})", long.join("; ")) };
    format!("{}, {}: {refusal}{place}", names[0], names[1])
}
