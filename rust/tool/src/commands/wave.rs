//! `wave`: a run as waveforms, in the format VCD, which GTKWave reads.

use std::fmt::Write;

use gunwaleish::{Event, Master, Outcome};

use crate::command::{Command, Run, TRACES};
use crate::each::{each_trace, refused, Made};
use crate::files::Input;
use crate::story::{follow, Step, Story};
use crate::version::TOOL;
use crate::words;

pub const COMMAND: Command = Command {
    name: "wave",
    summary: "the run as waveforms (VCD), for GTKWave",
    usage: TRACES,
    help: "A TICK stands at each full millisecond. The events between two ticks are spread evenly, so\n\
           that each can be seen. owner and switch are 0 none, 1 controller 0, 2 controller 1. ground,\n\
           why the claim was won, is 0 no claim, 1 sole requester, 2 priority, 3 last granted.",
    options: &[],
    example: "build/release/gunwaleish wave traces/box14-rt50.trace -o build/box14-rt50.vcd",
    run: Run::Alone(|arguments| each_trace(arguments, "vcd", wave)),
};

/// Units of time in a tick. There are more of them than a trace has events, so no two events meet.
const TICK: u64 = 10_000;

pub fn wave(input: &Input) -> Made {
    match follow(&input.bytes) {
        Err(refusal) => Made::refused(refused(input, refusal)),
        Ok(story) => Made::done(vcd(&story)),
    }
}

/// Something that is shown: a level or number that stands, or a mark at one moment.
enum Trait {
    Stands { width: usize, first: u32, value: Box<dyn Fn(&Step) -> u32> },
    Happens(Box<dyn Fn(&Step) -> bool>),
}

struct Shown {
    name: String,
    what: Trait,
}

fn bit(name: &str, first: bool, value: impl Fn(&Step) -> bool + 'static) -> Shown {
    let value = Box::new(move |step: &Step| u32::from(value(step)));
    Shown { name: name.into(), what: Trait::Stands { width: 1, first: first.into(), value } }
}

fn number(name: &str, width: usize, value: impl Fn(&Step) -> u32 + 'static) -> Shown {
    Shown { name: name.into(), what: Trait::Stands { width, first: 0, value: Box::new(value) } }
}

fn mark(name: &str, happens: impl Fn(&Step) -> bool + 'static) -> Shown {
    Shown { name: name.into(), what: Trait::Happens(Box::new(happens)) }
}

fn code(master: Option<Master>) -> u32 {
    master.map_or(0, |master| 1 + u32::from(master.number()))
}

/// What is shown, in groups.
fn groups() -> Vec<(String, Vec<Shown>)> {
    let mut groups: Vec<_> = Master::BOTH.map(controller).into();
    groups.push(("bus".to_string(), bus()));
    groups.push(("answer".to_string(), answer()));
    groups
}

fn controller(m: Master) -> (String, Vec<Shown>) {
    let place = m as usize;
    let shown = vec![
        mark("COMMAND", move |s| matches!(s.event, Event::Command { master, .. } if master == m)),
        mark("WRITE", move |s| matches!(s.event, Event::Write { master, .. } if master == m)),
        mark("READ", move |s| s.event == Event::Read { master: m }),
        mark("STOP", move |s| s.event == Event::Stop { master: m }),
        mark(
            "GENERAL_CALL",
            move |s| matches!(s.event, Event::GeneralCall { master, .. } if master == m),
        ),
        bit("waits", false, move |s| s.scene.waits[place]),
        bit("owns", false, move |s| s.scene.owner == Some(m)),
        bit("connected", false, move |s| s.scene.connected == Some(m)),
        bit(&format!("INT{m}"), false, move |s| s.scene.asserted[place]),
    ];
    (format!("controller{m}"), shown)
}

fn bus() -> Vec<Shown> {
    vec![
        mark("PAIR", |s| matches!(s.event, Event::Pair { .. })),
        mark("LINES", |s| matches!(s.event, Event::Lines { .. })),
        mark("TICK", |s| s.event == Event::Tick),
        mark("PULSE", |s| matches!(s.event, Event::Pulse { .. })),
        mark("RESET", |s| s.event == Event::Reset),
        bit("SCL", true, |s| s.scene.scl),
        bit("SDA", true, |s| s.scene.sda),
        number("owner", 2, |s| code(s.scene.owner)),
        number("switch", 2, |s| code(s.scene.connected)),
        number("ground", 2, |s| s.scene.ground.map_or(0, |ground| ground.number().into())),
        bit("initialising", false, |s| s.scene.initialising),
        bit("hung", false, |s| s.scene.hung),
    ]
}

fn answer() -> Vec<Shown> {
    vec![
        mark("no_event", |s| matches!(s.event, Event::Raw(_))),
        mark("refused", |s| s.answer.outcome.is_refused()),
        mark("not_acknowledged", |s| s.answer.outcome == Outcome::NotAcknowledged),
        number("event_bytes", 32, |s| u32::from_be_bytes(s.event.bytes())),
        number("outcome", 8, |s| s.answer.outcome.number().into()),
        number("byte_read", 8, |s| s.answer.byte_read.into()),
    ]
}

/// The time of each step, and of the end.
pub fn times(story: &Story) -> (Vec<u64>, u64) {
    let mut times = vec![];
    let mut start = 0;
    for run in story.steps.chunk_by(|a, b| a.event != Event::Tick && b.event != Event::Tick) {
        if run[0].event == Event::Tick {
            start += TICK;
            times.push(start);
        } else {
            let parts = run.len() as u64 + 1;
            times.extend((1..parts).map(|part| start + part * TICK / parts));
        }
    }
    (times, start + TICK)
}

fn vcd(story: &Story) -> String {
    let groups = groups();
    let mut text = format!(
        "$version {TOOL} $end\n$comment {} at address {:02X}h, {}; a tick is 1 ms $end\n\
         $timescale 100 ns $end\n$scope module arbiter $end\n",
        story.part,
        story.address,
        words::count(story.steps.len(), "event")
    );
    // A shown thing goes by one printable character, from ! on.
    let mut letters = '!'..;
    let mut shown: Vec<(char, &Shown)> = vec![];
    for (name, things) in &groups {
        let _ = writeln!(text, "$scope module {name} $end");
        for (thing, letter) in things.iter().zip(letters.by_ref()) {
            let (kind, width) = match thing.what {
                Trait::Stands { width, .. } => ("wire", width),
                Trait::Happens(_) => ("event", 1),
            };
            let _ = writeln!(text, "$var {kind} {width} {letter} {} $end", thing.name);
            shown.push((letter, thing));
        }
        text.push_str("$upscope $end\n");
    }
    text.push_str("$upscope $end\n$enddefinitions $end\n");
    changes(story, &shown, &mut text);
    text
}

fn changes(story: &Story, shown: &[(char, &Shown)], text: &mut String) {
    let mut last: Vec<u32> = vec![];
    text.push_str("#0\n$dumpvars\n");
    for (letter, thing) in shown {
        last.push(match thing.what {
            Trait::Stands { width, first, .. } => {
                text.push_str(&value(width, first, *letter));
                first
            }
            Trait::Happens(_) => 0,
        });
    }
    text.push_str("$end\n");
    let (times, end) = times(story);
    for (time, step) in times.iter().zip(&story.steps) {
        let _ = writeln!(text, "#{time}");
        for ((letter, thing), last) in shown.iter().zip(&mut last) {
            match &thing.what {
                Trait::Happens(happens) if happens(step) => {
                    let _ = writeln!(text, "1{letter}");
                }
                Trait::Stands { width, value: now, .. } if now(step) != *last => {
                    *last = now(step);
                    text.push_str(&value(*width, *last, *letter));
                }
                _ => {}
            }
        }
    }
    let _ = writeln!(text, "#{end}");
}

fn value(width: usize, value: u32, letter: char) -> String {
    match width {
        1 => format!("{value}{letter}\n"),
        _ => format!("b{value:b} {letter}\n"),
    }
}
