//! Events, answers and changes in words.

use gunwaleish::{Event, Ground, Master, Outcome, Part};

use crate::story::{idle_limit, write_pointer_rolls};
use crate::story::{Change, GrantEnd, InitialisationEnd, Step};

/// Registers by their pointers.
const REGISTERS: [&str; 8] =
    ["ID", "CONTR", "STATUS", "RT", "INT_STATUS", "INT_MSK", "mailbox low", "mailbox high"];

/// The bits of CONTR, STATUS and INT_STATUS, from bit 7 down.
const CONTR_BITS: [&str; 8] = [
    "PRIORITY",
    "SMBUS_DIS",
    // Its name says the contrary of what its 1 does.
    "IDLE_TIMER_DIS (1 turns the idle timer on)",
    "SMBUS_SWRST",
    "BUS_INIT",
    "BUS_CONNECT",
    "LOCK_GRANT",
    "LOCK_REQ",
];
const STATUS_BITS: [&str; 8] = [
    "SDA high",
    "SCL high",
    "TEST_INT",
    "own mailbox full",
    "partner's mailbox empty",
    "BUS_HUNG",
    "BUS_INIT_FAIL",
    "partner granted",
];
const INT_BITS: [&str; 8] =
    ["-", "hung", "mail full", "mail emptied", "test", "granted", "lost", "INT_IN"];

pub fn register(pointer: u8) -> &'static str {
    REGISTERS[usize::from(pointer & 7)]
}

/// The bits of a byte at a register that are 1, by their names; of INT_MSK those that are 0, since
/// these let an interrupt through.
pub fn bits(pointer: u8, value: u8) -> Option<String> {
    let (names, ones) = match pointer {
        1 => (CONTR_BITS, value),
        2 => (STATUS_BITS, value),
        4 => (INT_BITS, value & 0x7F),
        5 => (INT_BITS, !value & 0x7F),
        _ => return None,
    };
    let set = (0..8).filter(|bit| ones & 0x80 >> bit != 0).map(|bit| names[bit]);
    let set: Vec<&str> = set.collect();
    (!set.is_empty()).then(|| set.join(", "))
}

/// What a byte written at a register is for, by the names of its bits.
fn written(pointer: u8, value: u8) -> Option<String> {
    match pointer {
        2 => drives(value),
        4 => bits(pointer, value).map(|names| format!("clears {names}")),
        5 => bits(pointer, value).map(|names| format!("lets through {names}")),
        _ => bits(pointer, value),
    }
}

/// STATUS, written. A drive is ignored unless the writer is granted and has BUS_CONNECT 0.
fn drives(value: u8) -> Option<String> {
    let parts = [
        (value & 0x80 == 0, "drive SDA low"),
        (value & 0x40 == 0, "drive SCL low"),
        (value & 0x20 != 0, "TEST_INT"),
    ];
    let said: Vec<&str> = parts.into_iter().filter(|part| part.0).map(|part| part.1).collect();
    (!said.is_empty()).then(|| said.join(", "))
}

/// What the bits of the event's byte are called, if it has one at a register of bits.
pub fn meaning(step: &Step) -> Option<String> {
    let at = |m: Master| step.before[m as usize].pointer;
    if step.answer.outcome.is_refused() {
        return None;
    }
    match step.event {
        Event::Write { master, value } => written(at(master), value),
        Event::Read { master } => bits(at(master), step.answer.byte_read),
        Event::Pair { value0, value1 } => {
            let said =
                |m: Master, value| written(at(m), value).map(|names| format!("{m}: {names}"));
            let both = [said(Master::Zero, value0), said(Master::One, value1)];
            let both: Vec<String> = both.into_iter().flatten().collect();
            (!both.is_empty()).then(|| both.join(", "))
        }
        _ => None,
    }
}

/// That a full mailbox drops the event's byte, or a byte of the PAIR.
pub fn dropped(step: &Step) -> Option<String> {
    let why = "dropped: the box is full";
    match (step.dropped, step.event) {
        ([false, false], _) => None,
        ([true, true], _) => Some(format!("both {}", why.replace("box is", "boxes are"))),
        ([true, false], Event::Pair { .. }) => Some(format!("0: {why}")),
        ([false, true], Event::Pair { .. }) => Some(format!("1: {why}")),
        _ => Some(why.to_string()),
    }
}

fn level(high: bool) -> &'static str {
    if high {
        "high"
    } else {
        "low"
    }
}

/// What came, in words. A byte is told with its register, which the step before has.
pub fn event(step: &Step) -> String {
    let at = |m: Master| step.before[m as usize].pointer;
    let writes = |m: Master, value: u8| format!("{value:02X}h to {}", register(at(m)));
    match step.event {
        Event::Command { master, code } => format!("{master} COMMAND {}", command(code)),
        Event::Write { master, value } => format!("{master} WRITE {}", writes(master, value)),
        Event::Read { master } => {
            format!("{master} READ {:02X}h from {}", step.answer.byte_read, register(at(master)))
        }
        Event::Stop { master } => format!("{master} STOP"),
        Event::Pair { value0, value1 } => {
            let (zero, one) = (writes(Master::Zero, value0), writes(Master::One, value1));
            format!("PAIR 0: {zero}, 1: {one}")
        }
        Event::Lines { scl, sda, int_in } => {
            format!("LINES SCL {}, SDA {}, INT_IN {}", level(scl), level(sda), level(int_in))
        }
        Event::Tick => "TICK".to_string(),
        Event::Pulse { sda } => format!("PULSE with SDA {}", level(sda)),
        Event::Reset => "RESET".to_string(),
        Event::GeneralCall { master, code: 0x06 } => {
            format!("{master} GENERAL CALL 06h (soft reset)")
        }
        Event::GeneralCall { master, code } => format!("{master} GENERAL CALL {code:02X}h"),
        Event::Raw([a, b, c, d]) => format!("bytes {a:02X} {b:02X} {c:02X} {d:02X}, no event"),
    }
}

fn command(code: u8) -> String {
    if code & 0x78 != 0 {
        return format!("{code:02X}h (no register)");
    }
    let counting = if code & 0x80 != 0 { ", counting up" } else { "" };
    format!("{code:02X}h ({}{counting})", register(code))
}

/// What became of it.
pub fn outcome(outcome: Outcome) -> String {
    match outcome.is_refused() {
        true => format!("refused {}: {outcome}", outcome.number()),
        false => outcome.to_string(),
    }
}

/// A change as a sentence without its full stop.
pub fn change(change: &Change) -> String {
    match *change {
        Change::GrantEnded(m, GrantEnd::LetGo) => format!("controller {m} lets the bus go"),
        Change::GrantEnded(m, GrantEnd::Lost) => format!("controller {m} loses the bus"),
        Change::GrantEnded(m, GrantEnd::Reset) => {
            format!("the reset takes the bus from controller {m}")
        }
        Change::Granted { master, rt, idle_limit } => {
            format!("controller {master} is granted the bus with {}", holds(rt, idle_limit))
        }
        Change::BeginsToWait(m) => format!("controller {m} asks for the bus and waits"),
        Change::GivesUp(m) => format!("controller {m} asks no more"),
        Change::Claims(m, ground) => format!("controller {m} claims the bus: {}", won(ground)),
        Change::InitialisationStarts => "an initialisation starts".to_string(),
        Change::InitialisationEnds(InitialisationEnd::Succeeds) => {
            "the initialisation succeeds".to_string()
        }
        Change::InitialisationEnds(InitialisationEnd::Fails) => {
            "the initialisation fails".to_string()
        }
        Change::InitialisationEnds(InitialisationEnd::IsAbandoned) => {
            "the initialisation is abandoned".to_string()
        }
        Change::Disconnected(m) => format!("controller {m} is disconnected"),
        Change::Connected(m) => format!("controller {m} is connected"),
        Change::Asserted(m) => format!("INT{m} is asserted"),
        Change::Released(m) => format!("INT{m} is released"),
        Change::SclFalls => "SCL falls".to_string(),
        Change::SclRises => "SCL rises".to_string(),
        Change::SdaFalls => "SDA falls".to_string(),
        Change::SdaRises => "SDA rises".to_string(),
        Change::Hung => "the bus is hung".to_string(),
        Change::HungNoMore => "the bus is no longer hung".to_string(),
    }
}

/// Why a claim was won.
fn won(ground: Ground) -> &'static str {
    match ground {
        Ground::Sole => "it alone asks",
        Ground::Priority => "both ask, and it has priority",
        Ground::LastGranted => "both ask with equal priorities, and it was not the last granted",
    }
}

/// What is to be known of a part: the two things in which it differs from the other.
pub fn part(part: Part) -> String {
    let pointer = match write_pointer_rolls(part) {
        true => "rolls from 7 to 0",
        false => "stays at 7",
    };
    format!(
        "On a {part} the idle timer, if it is on, ends a grant with RT 00h at {} idle ticks, and a \
         counting write pointer {pointer}.",
        idle_limit(part)
    )
}

/// What a grant with this RT does, and with this limit of the idle timer, if that is on.
fn holds(rt: u8, idle_limit: Option<usize>) -> String {
    let how = match (rt, idle_limit) {
        (0, None) => "until let go".to_string(),
        (0, Some(limit)) => {
            format!("until let go, or until the idle timer ends it at {limit} idle ticks")
        }
        (rt, _) => format!("for {}, then until the bus is idle", ticks(rt.into())),
    };
    format!("RT {rt:02X}h, which holds {how}")
}

/// Why a master that asks is not granted, at the moment after a step. `granted_at` is the event at
/// which the owner was granted.
pub fn why_it_waits(step: &Step, master: Master, granted_at: usize) -> String {
    let port_open = |m: Master| step.after[m as usize].port_open;
    let partner = master.partner();
    match step.scene.owner {
        Some(owner) => {
            let written = &step.after[owner as usize];
            let (rt, idle_limit) = (written.rt, written.idle_limit());
            let timer = match (rt, idle_limit) {
                (0, None) => ", and its idle timer is off",
                _ => "",
            };
            let holds = holds(rt, idle_limit);
            format!("controller {owner} was granted it at event {granted_at} with {holds}{timer}")
        }
        None if port_open(master) => {
            "a grant waits for the STOP, and its own port is still open".to_string()
        }
        // With SCL high there is no hold, so it is the partner that claims. With SCL low the
        // answers do not say which of the two it is.
        None => {
            let held = "SCL is held low after a soft reset, and no grant is made meanwhile";
            let claims = format!("controller {partner} claims the bus and its port is still open");
            match step.scene.waits[partner as usize] && port_open(partner) {
                true if step.scene.scl => claims,
                true => format!("{claims}, or {held}"),
                false => held.to_string(),
            }
        }
    }
}

/// So many ticks.
pub fn ticks(number: usize) -> String {
    count(number, "tick")
}

/// A number with its noun.
pub fn count(number: usize, noun: &str) -> String {
    match number {
        1 => format!("1 {noun}"),
        _ => format!("{number} {noun}s"),
    }
}

/// A sentence's beginning: the first letter as a capital.
pub fn capital(text: &str) -> String {
    let mut letters = text.chars();
    let first = letters.next().map(|letter| letter.to_ascii_uppercase());
    first.into_iter().chain(letters).collect()
}
