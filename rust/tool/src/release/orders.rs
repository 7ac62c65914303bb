//! The two start-up scripts: all their orders, and the reasons that stand in them.

use gunwaleish::{run, Master, Refusal, Section, MOST_SCRIPT};

use super::{Bundle, Orders, Rank, Read, Reason};
use crate::commands::compose::MOST_TEXT;
use crate::hint::Kind;
use crate::script::{line_of, read_script, Script};
use crate::sheet::{BoxName, Pair};
use crate::startup::{words, Ending, Group, Left, Scripts};
use crate::words::{capital, count, outcome};

/// All orders of the scripts, or why they cannot be tried.
pub fn all_orders(reads: &[Read; 2]) -> Result<Orders, Vec<Reason>> {
    let [first, second] = reads.each_ref().map(read_one);
    let (first, second) = match (first, second) {
        (Ok(first), Ok(second)) => (first, second),
        (first, second) => return Err(first.err().into_iter().chain(second.err()).collect()),
    };
    if (first.pins, first.part) != (second.pins, second.part) {
        return Err(vec![two_devices(reads, [&first, &second])]);
    }
    let scripts =
        Scripts { pins: first.pins, part: first.part, events: [first.events, second.events] };
    let tried = || -> Result<(Vec<Ending>, Vec<Group>), Refusal> {
        let endings = scripts.endings()?;
        let groups = scripts.groups(&endings)?;
        Ok((endings, groups))
    };
    match tried() {
        Ok((endings, groups)) => Ok(Orders { scripts, endings, groups, worst: 0 }),
        Err(refusal) => Err(no_orders(reads, &scripts, refusal)),
    }
}

/// A reason why a file cannot be used.
fn refused(file: &str, place: Option<String>, what: String, mend: &str) -> Reason {
    let (file, mend) = (file.to_string(), mend.to_string());
    Reason { rank: Rank::FileRefused, file, place, what, mend }
}

const MADE_ANEW: &str =
    "Mend the line; gunwaleish compose --help has the words of a script, and gunwaleish sheet writes the start-up scripts of the sheets.";

fn read_one(read: &Read) -> Result<Script, Reason> {
    let name = read.name.as_str();
    if read.bytes.len() > MOST_TEXT {
        let what = "The script is longer than 16 MiB.".to_string();
        return Err(refused(name, None, what, "A start-up script has six events at the most."));
    }
    let script = read_script(&read.bytes).map_err(|unread| {
        let what = format!("It cannot be read: {}{}.", unread.why(), read.hint(Kind::Script));
        refused(name, Some(format!("line {}", unread.line)), what, MADE_ANEW)
    })?;
    match script.pins.address() {
        Ok(_) => Ok(script),
        Err(refusal) => {
            let place = format!("line {}", script.pins_line);
            Err(refused(name, Some(place), format!("It is refused: {refusal}."), MADE_ANEW))
        }
    }
}

fn both(reads: &[Read; 2]) -> String {
    format!("{} and {}", reads[0].name, reads[1].name)
}

fn two_devices(reads: &[Read; 2], scripts: [&Script; 2]) -> Reason {
    let of = |script: &Script| format!("a {} with pins {}", script.part, script.pins);
    let what = format!("One is for {}, the other for {}.", of(scripts[0]), of(scripts[1]));
    refused(
        &both(reads),
        None,
        what,
        "Give both the pins and the part of the one device that they start.",
    )
}

/// Why the library tries no orders: a script is too long.
fn no_orders(reads: &[Read; 2], scripts: &Scripts, refusal: Refusal) -> Vec<Reason> {
    let mend =
        "A start-up script has six events at the most; what comes later is no part of the start.";
    let long = |(read, events): (&Read, usize)| {
        let what = format!("It is refused: {refusal}, and it has {events}.");
        (events > MOST_SCRIPT).then(|| refused(&read.name, None, what, mend))
    };
    let long: Vec<Reason> = reads.iter().zip(scripts.lengths()).filter_map(long).collect();
    match long.is_empty() {
        true => vec![refused(&both(reads), None, format!("They are refused: {refusal}."), mend)],
        false => long,
    }
}

/// The reasons that stand in the orders, each with the place of its order in `endings`.
pub fn reasons(bundle: &Bundle, orders: &Orders, pair: Option<&Pair>) -> Vec<(Reason, usize)> {
    let Some(reads) = &bundle.scripts else {
        return vec![];
    };
    let stuck = orders.groups.iter().filter(|group| group.first.is_stuck());
    let mut all: Vec<_> = stuck.map(|group| nobody_owns(reads, orders, group)).collect();
    if let Some(pair) = pair {
        let boxes =
            BoxName::all().filter_map(|name| not_as_ordered(bundle, reads, orders, pair, name));
        all.extend(boxes);
    }
    all.extend(event_refused(reads, orders));
    all
}

/// How a pattern is told event by event.
fn replay(reads: &[Read; 2], ending: &Ending) -> String {
    let [first, second] = reads.each_ref().map(|read| read.name.as_str());
    format!("gunwaleish orders {first} {second} --order {} | gunwaleish explain", ending.pattern)
}

/// So many orders of all.
fn in_orders(number: usize, orders: &Orders) -> String {
    words::some(number, orders.endings.len())
}

fn nobody_owns(reads: &[Read; 2], orders: &Orders, group: &Group) -> (Reason, usize) {
    let why = group.why.join("; ");
    let reason = Reason {
        rank: Rank::NobodyOwns,
        file: both(reads),
        place: Some(format!("order {}", group.first.pattern)),
        what: format!(
            "Nobody owns the bus at the end, though it is asked for, {}: {why}.",
            in_orders(group.count, orders)
        ),
        mend: format!(
            "End each script with its STOP, and with no reset after a request. Event by event: {}",
            replay(reads, &group.first)
        ),
    };
    (reason, group.first.number - 1)
}

/// The bits of CONTR that boxes set.
const PRIORITY: u8 = 0x80;
const IDLE_TIMER: u8 = 0x20;

/// What a register holds where a box orders its value.
fn left_in(left: &Left, section: Section) -> u8 {
    match section {
        Section::Reserve => left.rt,
        Section::Priority => u8::from(left.contr & PRIORITY != 0),
        Section::Idle => u8::from(left.contr & IDLE_TIMER != 0),
    }
}

/// That some order leaves another value than a box orders, if one does.
fn not_as_ordered(
    bundle: &Bundle,
    reads: &[Read; 2],
    orders: &Orders,
    pair: &Pair,
    name: BoxName,
) -> Option<(Reason, usize)> {
    let ordered = pair.value(name.section, name.controller)?;
    let left = |ending: &Ending| left_in(&ending.left[name.controller as usize], name.section);
    let other: Vec<&Ending> = orders.endings.iter().filter(|e| left(e) != ordered).collect();
    let first = other.first()?;
    let own = &reads[name.controller as usize];
    // What is so in all orders comes of the controller's own script.
    let file = match other.len() == orders.endings.len() {
        true => own.name.clone(),
        false => both(reads),
    };
    let reason = Reason {
        rank: Rank::NotAsOrdered,
        file,
        place: Some(format!("{name}, order {}", first.pattern)),
        what: format!(
            "{} {}, and the sheets order {}.",
            capital(&in_orders(other.len(), orders)),
            leaves(name, left(first)),
            in_box(name.section, ordered)
        ),
        mend: made_by_sheets(bundle, orders, own, name.controller),
    };
    Some((reason, first.number - 1))
}

/// What is left where a box orders something.
fn leaves(name: BoxName, left: u8) -> String {
    let controller = name.controller;
    match name.section {
        Section::Reserve if left == 0 => {
            format!("controller {controller}'s RT is left at 00h, which is without limit")
        }
        Section::Reserve => {
            format!("controller {controller}'s RT is left at {left:02X}h, {left} ms")
        }
        Section::Priority => format!("controller {controller}'s priority is left at {left}"),
        Section::Idle => format!("controller {controller}'s idle timer is left {}", on_off(left)),
    }
}

fn in_box(section: Section, value: u8) -> String {
    match section {
        Section::Reserve if value == 0 => "00h, without limit".to_string(),
        Section::Reserve => format!("{value} ms, which is {value:02X}h"),
        Section::Priority => value.to_string(),
        Section::Idle => on_off(value).to_string(),
    }
}

fn on_off(value: u8) -> &'static str {
    if value == 0 {
        "off"
    } else {
        "on"
    }
}

/// How the controller's script is made of the sheets.
fn made_by_sheets(bundle: &Bundle, orders: &Orders, script: &Read, controller: Master) -> String {
    let Scripts { pins, part, .. } = &orders.scripts;
    format!(
        "The sheets give the script that leaves it as ordered: gunwaleish sheet {} {} --pins {pins} --part {part} \
         --script --controller {controller} -o {}",
        bundle.board.name, bundle.house.name, script.name
    )
}

/// That an event is refused in some order, with the first one.
fn event_refused(reads: &[Read; 2], orders: &Orders) -> Option<(Reason, usize)> {
    let with: Vec<&Ending> = orders.endings.iter().filter(|ending| ending.refused > 0).collect();
    let first = with.first()?;
    let told = refused_event(&orders.scripts, first).unwrap_or_default();
    let reason = Reason {
        rank: Rank::EventRefused,
        file: both(reads),
        place: Some(format!("order {}", first.pattern)),
        what: format!("{} an event is refused; here {told}.", capital(&in_orders(with.len(), orders))),
        mend: format!(
            "Keep each COMMAND and its WRITE together, with no reset in the other script. Event by event: {}",
            replay(reads, first)
        ),
    };
    Some((reason, first.number - 1))
}

/// The first event of an order that is refused.
fn refused_event(scripts: &Scripts, ending: &Ending) -> Option<String> {
    let run = run(&scripts.trace(&ending.pattern).ok()?).ok()?;
    let mut both = run.events.iter().zip(&run.answers).zip(1..);
    let ((event, answer), number) = both.find(|((_, answer), _)| answer.outcome.is_refused())?;
    Some(format!("event {number}, {}: {}", line_of(*event, 1), outcome(answer.outcome)))
}

/// So many orders, and how many of them leave whom the owner.
pub fn told(orders: &Orders) -> String {
    let of = |owner: Option<Master>| {
        let number = orders.endings.iter().filter(|ending| ending.bus.owner == owner).count();
        let who = owner.map_or("nobody".to_string(), |m| format!("controller {m}"));
        (number > 0).then(|| format!("{who} in {number}"))
    };
    let owners: Vec<String> =
        [Some(Master::Zero), Some(Master::One), None].into_iter().filter_map(of).collect();
    format!(
        "{} on a {}; the bus is owned at the end by {}",
        count(orders.endings.len(), "order"),
        orders.scripts.part,
        owners.join(", ")
    )
}
