//! Two start-up scripts in all the orders that keep each script's own order, and how each order ends.
//! Document 02, #109.
//!
//! The library lists how the bus stands at the end of each order. Who waits then is no part of that, nor
//! what the registers hold. It is asked of the library too: each order is run with a READ of both CONTR
//! and both RT after it, and LOCK_REQ stands in CONTR. `words` puts it all into words, and `rows` has it
//! for other programs.

pub mod rows;
pub mod words;

use std::fmt;

use gunwaleish::{
    list_orders, run, run_trace, write_trace, Answer, Bus, Event, Ground, Master, Part, Pins,
    Refusal, MOST_ORDERS,
};

use crate::story::follow;
use crate::words::why_it_waits;

/// The part on which the library lists the orders.
pub const PART: Part = Part::Pca9641;

const LOCK_REQ: u8 = 0x01;

/// The registers that are read after an order, by their numbers.
const CONTR: u8 = 1;
const RT: u8 = 3;

/// An order: for each of its events the script that it comes from, 0 or 1.
#[derive(Clone, Debug, PartialEq, Eq)]
pub struct Pattern(Vec<usize>);

impl Pattern {
    /// All orders of two scripts of so many events, in the sequence in which they are listed: at each
    /// point script 0's next event first, and then script 1's.
    pub fn all(events: [usize; 2]) -> Vec<Pattern> {
        if events == [0, 0] {
            return vec![Pattern(vec![])];
        }
        let mut all = vec![];
        for script in [0, 1] {
            let mut left = events;
            if let Some(fewer) = events[script].checked_sub(1) {
                left[script] = fewer;
                let rest = Pattern::all(left).into_iter();
                all.extend(rest.map(|Pattern(rest)| Pattern([vec![script], rest].concat())));
            }
        }
        all
    }

    /// The order that a word of 0 and 1 names, if two scripts of so many events have it.
    pub fn read(word: &str, events: [usize; 2]) -> Option<Pattern> {
        Pattern::all(events).into_iter().find(|pattern| pattern.digits() == word)
    }

    /// A 0 or 1 for each event.
    pub fn digits(&self) -> String {
        self.0.iter().map(usize::to_string).collect()
    }
}

impl fmt::Display for Pattern {
    fn fmt(&self, f: &mut fmt::Formatter) -> fmt::Result {
        match self.0.is_empty() {
            true => f.pad("(no event)"),
            false => f.pad(&self.digits()),
        }
    }
}

/// Two scripts for one device.
#[derive(Clone, Debug, PartialEq, Eq)]
pub struct Scripts {
    pub pins: Pins,
    pub part: Part,
    pub events: [Vec<Event>; 2],
}

/// What an order leaves in a controller's registers.
#[derive(Clone, Copy, Debug, PartialEq, Eq)]
pub struct Left {
    pub contr: u8,
    pub rt: u8,
}

/// How an order ends.
#[derive(Clone, Debug, PartialEq, Eq)]
pub struct Ending {
    /// Its place in the sequence, from 1.
    pub number: usize,
    pub pattern: Pattern,
    pub bus: Bus,
    /// A request stands and is not granted. Controller 0's first.
    pub waits: [bool; 2],
    /// How many of its events are refused.
    pub refused: usize,
    /// What the registers hold. Controller 0's first.
    pub left: [Left; 2],
}

impl Ending {
    /// Nobody owns the bus, though somebody asks for it.
    pub fn is_stuck(&self) -> bool {
        self.bus.owner.is_none() && self.waits != [false; 2]
    }
}

impl Scripts {
    pub fn lengths(&self) -> [usize; 2] {
        self.events.each_ref().map(Vec::len)
    }

    /// The events of an order.
    pub fn order(&self, pattern: &Pattern) -> Vec<Event> {
        let mut left = self.events.each_ref().map(|events| events.iter());
        pattern.0.iter().filter_map(|&script| left[script].next().copied()).collect()
    }

    /// An order as a trace.
    pub fn trace(&self, pattern: &Pattern) -> Result<Vec<u8>, Refusal> {
        write_trace(self.pins, self.part, &self.order(pattern))
    }

    /// How every order ends, in their sequence.
    pub fn endings(&self) -> Result<Vec<Ending>, Refusal> {
        let [script0, script1] = &self.events;
        let listed = list_orders(script0, script1, MOST_ORDERS)?;
        let patterns = Pattern::all(self.lengths()).into_iter();
        let endings = patterns.zip(listed).zip(1..);
        endings.map(|((pattern, bus), number)| self.ending(number, pattern, bus)).collect()
    }

    fn ending(&self, number: usize, pattern: Pattern, listed: Bus) -> Result<Ending, Refusal> {
        let order = self.order(&pattern);
        let bus = match self.part {
            PART => listed,
            _ => self.bus_after(&pattern)?,
        };
        let answers = self.ask(&order)?;
        let (own, read) = answers.split_at(order.len());
        // Of each controller the two bytes read, each after its COMMAND.
        let byte = |place: usize| read.get(2 * place + 1).map_or(0, |answer| answer.byte_read);
        let left = |m: Master| {
            let first = 2 * usize::from(m.number());
            Left { contr: byte(first), rt: byte(first + 1) }
        };
        let left = Master::BOTH.map(left);
        let asks = |m: Master| left[m as usize].contr & LOCK_REQ != 0;
        let waits = Master::BOTH.map(|m| asks(m) && bus.owner != Some(m));
        let refused = own.iter().filter(|answer| answer.outcome.is_refused()).count();
        Ok(Ending { number, pattern, bus, waits, refused, left })
    }

    /// The answers to an order, and to what is read of the registers after it.
    fn ask(&self, order: &[Event]) -> Result<Vec<Answer>, Refusal> {
        let read = |master, code| [Event::Command { master, code }, Event::Read { master }];
        let both = |master| [read(master, CONTR), read(master, RT)].concat();
        let asked = [order, &Master::BOTH.map(both).concat()].concat();
        Ok(run(&write_trace(self.pins, self.part, &asked)?)?.answers)
    }

    /// How the bus stands after an order, by the answer to its last event: on a part for which the
    /// library lists no orders.
    pub fn bus_after(&self, pattern: &Pattern) -> Result<Bus, Refusal> {
        let mut answers = vec![0; 4 * self.order(pattern).len()];
        run_trace(&self.trace(pattern)?, &mut answers)?;
        Ok(answers.chunks_exact(4).last().map_or(0, |answer| answer[2]).into())
    }

    /// Why each that waits does so, where nobody owns the bus: a sentence each.
    fn why(&self, ending: &Ending) -> Result<Vec<String>, Refusal> {
        if !ending.is_stuck() {
            return Ok(vec![]);
        }
        let story = follow(&self.trace(&ending.pattern)?)?;
        let waiting = Master::BOTH.into_iter().filter(|m| ending.waits[*m as usize]);
        let last = story.steps.last();
        let why = |m| Some(format!("controller {m} waits: {}", why_it_waits(last?, m, 0)));
        Ok(waiting.filter_map(why).collect())
    }

    /// The endings in groups, the one with the first order first.
    pub fn groups(&self, endings: &[Ending]) -> Result<Vec<Group>, Refusal> {
        let mut groups: Vec<Group> = vec![];
        for ending in endings {
            let new = Group {
                owner: ending.bus.owner,
                ground: ending.bus.ground,
                waits: ending.waits,
                why: self.why(ending)?,
                count: 1,
                first: ending.clone(),
            };
            match groups.iter_mut().find(|group| group.is_like(&new)) {
                Some(group) => group.count += 1,
                None => groups.push(new),
            }
        }
        Ok(groups)
    }
}

/// Orders that end in the same way: the same owner, on the same ground, and the same that wait.
#[derive(Clone, Debug, PartialEq, Eq)]
pub struct Group {
    pub owner: Option<Master>,
    pub ground: Option<Ground>,
    pub waits: [bool; 2],
    /// Why they wait, where nobody owns the bus.
    pub why: Vec<String>,
    pub count: usize,
    pub first: Ending,
}

impl Group {
    /// True if this order is one of them. Why they wait follows from that.
    pub fn has(&self, ending: &Ending) -> bool {
        (self.owner, self.ground, self.waits) == (ending.bus.owner, ending.bus.ground, ending.waits)
    }

    fn is_like(&self, other: &Group) -> bool {
        let key = |group: &Group| (group.owner, group.ground, group.waits);
        key(self) == key(other) && self.why == other.why
    }
}
