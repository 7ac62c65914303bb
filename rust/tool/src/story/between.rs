//! What changed in one event.

use gunwaleish::{Event, Master};

use super::changes::{Change, GrantEnd, InitialisationEnd};
use super::step::{Scene, Step};

/// What changed from the scene before to the scene after a step.
pub fn between(before: &Scene, step: &Step) -> Vec<Change> {
    let after = &step.scene;
    let mut changes = vec![];
    changes.extend(grant_ended(before, step));
    for master in Master::BOTH {
        let m = master as usize;
        match (before.waits[m], after.waits[m]) {
            (false, true) => changes.push(Change::BeginsToWait(master)),
            (true, false) if after.owner != Some(master) => changes.push(Change::GivesUp(master)),
            _ => {}
        }
    }
    changes.extend(claimed(before, after));
    changes.extend(granted(before, step));
    // When the bus passes on in one step, one initialisation may end and the next one start.
    let passes_on = before.owner != after.owner;
    if before.initialising && (passes_on || !after.initialising) {
        changes.push(Change::InitialisationEnds(how_it_went(step.event)));
    }
    if after.initialising && (passes_on || !before.initialising) {
        changes.push(Change::InitialisationStarts);
    }
    changes.extend(switched(before, after));
    changes
}

/// What is on or off: connections, outputs, lines, and whether the bus is hung.
fn switched(before: &Scene, after: &Scene) -> Vec<Change> {
    let mut changes = vec![];
    let mut note = |was: bool, is: bool, rises: Change, falls: Change| {
        if was != is {
            changes.push(if is { rises } else { falls });
        }
    };
    for master in Master::BOTH {
        let at = |scene: &Scene| scene.connected == Some(master);
        let (closes, opens) = (Change::Connected(master), Change::Disconnected(master));
        note(at(before), at(after), closes, opens);
    }
    for master in Master::BOTH {
        let at = |scene: &Scene| scene.asserted[master as usize];
        note(at(before), at(after), Change::Asserted(master), Change::Released(master));
    }
    note(before.scl, after.scl, Change::SclRises, Change::SclFalls);
    note(before.sda, after.sda, Change::SdaRises, Change::SdaFalls);
    note(before.hung, after.hung, Change::Hung, Change::HungNoMore);
    changes
}

fn grant_ended(before: &Scene, step: &Step) -> Option<Change> {
    let master = before.owner.filter(|_| step.scene.owner != before.owner)?;
    Some(Change::GrantEnded(master, how_it_ended(step, master)))
}

fn claimed(before: &Scene, after: &Scene) -> Option<Change> {
    let master = after.claimant.filter(|_| before.claimant != after.claimant)?;
    after.ground.map(|ground| Change::Claims(master, ground))
}

fn granted(before: &Scene, step: &Step) -> Option<Change> {
    let master = step.scene.owner.filter(|_| step.scene.owner != before.owner)?;
    let written = &step.after[master as usize];
    let (rt, idle_limit) = (written.rt, written.idle_limit());
    Some(Change::Granted { master, rt, idle_limit })
}

/// An owner lets go by a byte with LOCK_REQ 0 at register 1 (CONTR).
fn how_it_ended(step: &Step, master: Master) -> GrantEnd {
    let byte = match step.event {
        Event::Write { master: writer, value } if writer == master => Some(value),
        Event::Pair { value0, value1 } => Some([value0, value1][master as usize]),
        _ => None,
    };
    let at_contr = step.before[master as usize].pointer == 1;
    match byte {
        Some(value) if at_contr && value & 0x01 == 0 => GrantEnd::LetGo,
        _ if step.is_reset() => GrantEnd::Reset,
        _ => GrantEnd::Lost,
    }
}

/// Only a clock brings an initialisation to its own end.
fn how_it_went(event: Event) -> InitialisationEnd {
    match event {
        Event::Pulse { sda: true } => InitialisationEnd::Succeeds,
        Event::Pulse { sda: false } => InitialisationEnd::Fails,
        _ => InitialisationEnd::IsAbandoned,
    }
}
