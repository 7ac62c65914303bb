//! Why a controller still waits when a run ends, and what would help: the cases of `docs/RECOVERY.md`.
//!
//! The answers do not show how long a hold or a reserve still runs, nor whether a transfer goes on. The
//! image of the device does (`docs/IMAGE.md`), so the run's events are stepped on one.

use gunwaleish::{Device, Master, Part};

use crate::story::{idle_limit, Story};
use crate::words::ticks;

/// Places in the image: of master 0's registers, and how far those of master 1 are from them.
const CONTR: usize = 0;
const RT: usize = 1;
const NEXT_REGISTERS: usize = 7;
const RESERVE: usize = 14;
const HOLD: usize = 15;
const IDLE_COUNT: usize = 20;
const OUTSIDE: [usize; 2] = [21, 22];
const DRIVES: [usize; 2] = [24, 25];
const BUSY: usize = 26;
const TURN: usize = 27;
const KIND: usize = 31;
const PORT: usize = 32;
const NEXT_PORT: usize = 3;

const LOCK_REQ: u8 = 0x01;
const IDLE_TIMER_DIS: u8 = 0x20;

/// What ends a grant of a controller that does nothing more, if only ticks come.
#[derive(Clone, Copy, Debug, PartialEq, Eq)]
pub enum End {
    /// Its reserve, in so many ticks.
    Reserve(usize),
    /// RT is 00h, and its idle timer does, in so many ticks.
    IdleTimer(usize),
    /// It has one of these, but the bus is not idle.
    NotIdle,
    /// Nothing does: RT is 00h, and its idle timer is off.
    Nothing,
}

/// Why a controller waits.
#[derive(Clone, Copy, Debug, PartialEq, Eq)]
pub enum Case {
    /// The other owns the bus until this end.
    Owns(End),
    /// The other claims the bus, and its port is open.
    PortOpen,
    /// A soft reset holds SCL low for so many ticks. Then the waiting one owns, or before it the other,
    /// until this end; its ticks count from there on.
    Held(usize, Option<End>),
    /// It claims the bus itself, and its own STOP is still to come.
    OwnStop,
}

impl Case {
    /// Why this controller waits, if it does.
    pub fn of(device: &Device, waiting: Master) -> Option<Case> {
        let other = waiting.partner();
        let hold = at(device, HOLD);
        let asks = register(device, CONTR, waiting) & LOCK_REQ != 0;
        // By threes: nobody, 0 claims, 1 claims, 0 owns, 1 owns.
        let turn = at(device, TURN).div_ceil(3);
        let claims = |m: Master| turn == 1 + m as usize;
        match turn {
            _ if !asks || turn == 3 + waiting as usize => None,
            _ if turn == 3 + other as usize => Some(Case::Owns(end(device, other))),
            _ if claims(other) && port_open(device, other) => Some(Case::PortOpen),
            _ if claims(other) => Some(Case::Held(hold, Some(end(device, other)))),
            _ if hold > 0 => Some(Case::Held(hold, None)),
            _ => Some(Case::OwnStop),
        }
    }

    /// True if it gets the bus, with its own STOP, without anything but ticks.
    pub fn waiting_helps(self) -> bool {
        let ends = |end: End| matches!(end, End::Reserve(_) | End::IdleTimer(_));
        match self {
            Case::Owns(end) | Case::Held(_, Some(end)) => ends(end),
            Case::PortOpen => false,
            Case::Held(_, None) | Case::OwnStop => true,
        }
    }
}

/// What would end the grant of this one, an owner or the next.
fn end(device: &Device, holder: Master) -> End {
    let rt = register(device, RT, holder);
    let timer = register(device, CONTR, holder) & IDLE_TIMER_DIS != 0;
    // During a hold nobody owns yet: the grant comes at its end, and the reserve is then whole.
    let held = at(device, HOLD) > 0;
    let high = |places: [usize; 2]| places.iter().all(|&place| at(device, place) == 1);
    let idle = at(device, BUSY) == 0 && high(OUTSIDE) && high(DRIVES);
    match (rt, timer) {
        (0, false) => End::Nothing,
        _ if !idle => End::NotIdle,
        (0, true) => End::IdleTimer(limit(device) - at(device, IDLE_COUNT)),
        (rt, _) if held => End::Reserve(usize::from(rt)),
        _ => End::Reserve(at(device, RESERVE)),
    }
}

fn limit(device: &Device) -> usize {
    match device.image()[KIND] {
        0 => idle_limit(Part::Pca9641),
        _ => idle_limit(Part::Tpt29641),
    }
}

fn at(device: &Device, place: usize) -> usize {
    device.image()[place].into()
}

fn register(device: &Device, place: usize, master: Master) -> u8 {
    device.image()[place + NEXT_REGISTERS * master as usize]
}

fn port_open(device: &Device, master: Master) -> bool {
    at(device, PORT + NEXT_PORT * master as usize) != 0
}

/// A line for each controller that waits at the end of a run.
pub fn in_words(story: &Story) -> Vec<String> {
    let mut device = Device::fresh(story.part);
    for step in &story.steps {
        device.step(step.event);
    }
    let helped = |m: Master| Case::of(&device, m).map(|case| said(case, m, port_open(&device, m)));
    Master::BOTH.into_iter().filter_map(helped).collect()
}

/// What would help this controller. `open` says that its own STOP is still to come.
pub fn said(case: Case, waiting: Master, open: bool) -> String {
    if case == Case::OwnStop {
        return format!(
            "Controller {waiting} needs its own STOP: it claims, and its port is open."
        );
    }
    let stop = if open { ", and its own STOP has to come" } else { "" };
    let why = why(case, waiting.partner());
    match case.waiting_helps() {
        true => format!("Waiting helps controller {waiting}: {why}{stop}."),
        false => format!(
            "Waiting does not help controller {waiting}: {why}{stop}. Its own way out is GENERAL CALL \
             06h, then RT and CONTR anew (docs/RECOVERY.md)."
        ),
    }
}

fn why(case: Case, other: Master) -> String {
    let held = |number| format!("a soft reset holds SCL low for {} more", ticks(number));
    match case {
        Case::Owns(end) => until(end, other),
        Case::PortOpen => format!(
            "controller {other} claims the bus inside a transfer to the arbiter, and owns it at its \
             own STOP only"
        ),
        Case::Held(number, None) => format!("{}, and then it is the owner", held(number)),
        Case::Held(number, Some(end)) => {
            format!("{}, then controller {other} is the owner, and {}", held(number), until(end, other))
        }
        Case::OwnStop => String::new(),
    }
}

fn until(end: End, other: Master) -> String {
    match end {
        End::Reserve(number) => {
            format!("controller {other}'s reserve ends in {}, if the bus is idle then", ticks(number))
        }
        End::IdleTimer(number) => format!(
            "controller {other} has RT 00h, and its idle timer ends the grant in {}, if the bus stays \
             idle and the timer on",
            ticks(number)
        ),
        End::NotIdle => format!(
            "controller {other} keeps the bus past any reserve until it falls idle, and on it a \
             transfer has not ended or a line is low"
        ),
        End::Nothing => format!(
            "controller {other} has RT 00h and its idle timer off, and keeps the bus until it lets go"
        ),
    }
}
