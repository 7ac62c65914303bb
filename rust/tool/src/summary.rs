//! A run in totals, one set for each controller.
//!
//! Owned, connected and waited are counted in ticks, by what can be seen after each TICK.

use gunwaleish::{Event, Master};

use crate::story::{Change, GrantEnd, Step, Story};
use crate::words::{count, ticks, why_it_waits};

/// Said beside the totals.
pub const HOW_COUNTED: &str =
    "Totals count the ticks after which it was so: a reserve of 50 ticks, \
                               lost at the 50th, counts 49.";

/// How a wait ended.
#[derive(Clone, Copy, Debug, PartialEq, Eq)]
pub enum WaitEnd {
    /// At this event, when so many ticks had passed.
    Granted { event: usize, tick: usize },
    /// The request was taken back, or a reset took it.
    GaveUp { event: usize },
    /// The trace ended first.
    StillWaiting,
}

#[derive(Clone, Copy, Debug, PartialEq, Eq)]
pub struct Wait {
    /// The event that asked.
    pub from: usize,
    pub ticks: usize,
    pub end: WaitEnd,
}

/// One controller's part of a run.
#[derive(Clone, Debug, Default, PartialEq, Eq)]
pub struct Share {
    pub owned: usize,
    pub connected: usize,
    pub waited: usize,
    pub granted: usize,
    pub lost: usize,
    pub let_go: usize,
    pub reset: usize,
    pub waits: Vec<Wait>,
}

impl Share {
    /// The first of the longest waits, if there was one of a tick or more.
    pub fn longest_wait(&self) -> Option<&Wait> {
        let most = self.waits.iter().map(|wait| wait.ticks).max()?;
        self.waits.iter().find(|wait| wait.ticks == most && most > 0)
    }
}

pub fn share(story: &Story, master: Master) -> Share {
    let mut share = Share::default();
    let mut waiting: Option<Wait> = None;
    for step in &story.steps {
        for change in &step.changes {
            note(change, master, &mut share);
        }
        let waits = step.scene.waits[master as usize];
        if waits {
            let new = Wait { from: step.number, ticks: 0, end: WaitEnd::StillWaiting };
            waiting.get_or_insert(new).ticks += usize::from(step.event == Event::Tick);
        } else if let Some(wait) = waiting.take() {
            share.waits.push(Wait { end: end_of_wait(step, master), ..wait });
        }
        if step.event == Event::Tick {
            share.owned += usize::from(step.scene.owner == Some(master));
            share.connected += usize::from(step.scene.connected == Some(master));
            share.waited += usize::from(waits);
        }
    }
    share.waits.extend(waiting);
    share
}

fn note(change: &Change, master: Master, share: &mut Share) {
    match *change {
        Change::Granted { master: m, .. } if m == master => share.granted += 1,
        Change::GrantEnded(m, GrantEnd::Lost) if m == master => share.lost += 1,
        Change::GrantEnded(m, GrantEnd::LetGo) if m == master => share.let_go += 1,
        Change::GrantEnded(m, GrantEnd::Reset) if m == master => share.reset += 1,
        _ => {}
    }
}

fn end_of_wait(step: &Step, master: Master) -> WaitEnd {
    match step.scene.owner == Some(master) {
        true => WaitEnd::Granted { event: step.number, tick: step.tick },
        false => WaitEnd::GaveUp { event: step.number },
    }
}

/// The totals as lines of text: one for each controller, and one for each that waits at the end.
pub fn in_words(story: &Story) -> Vec<String> {
    let mut lines = vec![];
    for master in Master::BOTH {
        lines.push(totals(master, &share(story, master)));
    }
    for master in Master::BOTH {
        lines.extend(verdict(story, master));
    }
    lines
}

fn totals(master: Master, share: &Share) -> String {
    let reset = match share.reset {
        0 => String::new(),
        number => format!(", {number} ended by a reset"),
    };
    format!(
        "controller {master}: owned {}, connected {}, waited {}; {} taken, {} lost, {} let go{reset}; {}",
        ticks(share.owned),
        share.connected,
        share.waited,
        count(share.granted, "grant"),
        share.lost,
        share.let_go,
        longest(share)
    )
}

fn longest(share: &Share) -> String {
    let Some(wait) = share.longest_wait() else {
        return "no wait of a tick".to_string();
    };
    let end = match wait.end {
        WaitEnd::Granted { event, tick } => format!("then granted at event {event}, tick {tick}"),
        WaitEnd::GaveUp { event } => format!("then its request ended at event {event}"),
        WaitEnd::StillWaiting => "and still waiting".to_string(),
    };
    format!("longest wait {} from event {}, {end}", ticks(wait.ticks), wait.from)
}

/// What is to be said of a controller that waits when the trace ends.
fn verdict(story: &Story, master: Master) -> Option<String> {
    let last = story.steps.last()?;
    let share = share(story, master);
    let wait = share.waits.last().filter(|wait| wait.end == WaitEnd::StillWaiting)?;
    let said = match (wait.ticks, share.granted) {
        (0, _) => "still waits at the end".to_string(),
        (number, 0) => format!("waited {} and was never granted the bus", ticks(number)),
        (number, _) => format!("still waits at the end, {} by now", ticks(number)),
    };
    let granted_at = last.scene.owner.and_then(|owner| granted_at(story, owner)).unwrap_or(0);
    let why = why_it_waits(last, master, granted_at);
    Some(format!("controller {master} {said}: {why}"))
}

/// The event of this master's last grant.
fn granted_at(story: &Story, owner: Master) -> Option<usize> {
    let is_grant =
        |change: &Change| matches!(change, Change::Granted { master, .. } if *master == owner);
    let grant = story.steps.iter().rev().find(|step| step.changes.iter().any(is_grant))?;
    Some(grant.number)
}
