//! What the tool derives, held to the independent model's device on many generated traces.

use std::sync::OnceLock;

use gunwaleish::{Event, Ground, Master, Part, MOST_EVENTS};
use gunwaleish_tool::story::{
    follow, idle_limit, write_pointer_rolls, Change, GrantEnd, Step, Story,
};
use gunwaleish_tool::summary::{share, WaitEnd};
use gunwaleish_tool::words::why_it_waits;
use model::device::{Port, IDLE_TIMER_DIS, LOCK_REQ};
use model::part::{Kind, BOTH_KINDS};
use model::traces::{seed_of, trace};
use model::Device;

/// Runs of several lengths, followed once for all tests. A bus hangs only in the longer ones.
fn stories() -> &'static [Story] {
    static STORIES: OnceLock<Vec<Story>> = OnceLock::new();
    STORIES.get_or_init(|| {
        let lengths = [(150, 60), (40, 400), (12, 1500), (2, MOST_EVENTS)];
        let mut stories = vec![];
        for (count, length) in lengths {
            let seeds = (0..count).map(|place| seed_of(length as u64, place));
            stories.extend(seeds.map(|seed| follow(&trace(seed, length)).unwrap()));
        }
        stories
    })
}

/// The model's name for a story's part.
fn kind(story: &Story) -> Kind {
    Kind::of(story.part.number()).unwrap()
}

/// Goes along with the model and shows each step with the device before and after it.
fn along(story: &Story, mut see: impl FnMut(&Step, &Device, &Device)) {
    let mut device = Device::power_up_of(kind(story));
    for step in &story.steps {
        let before = device.clone();
        device.step(step.event.bytes());
        see(step, &before, &device);
    }
}

/// There are stories of both parts, and what is told of a part is what the model does.
#[test]
fn both_parts_are_followed_by_their_rules() {
    for kind in BOTH_KINDS {
        let part = Part::of(kind.number()).unwrap();
        assert_eq!(idle_limit(part) as i64, kind.idle_ticks());
        assert_eq!(write_pointer_rolls(part), kind.pointer_after_write(7) == 0);
        let mut past_7 = 0;
        for story in stories().iter().filter(|story| story.part == part) {
            along(story, |step, before, _| {
                let Event::Write { master, .. } = step.event else { return };
                let own = &before.masters[master as usize];
                let counts = own.pointer == 7 && own.auto_increment;
                past_7 += usize::from(counts && !step.answer.outcome.is_refused());
            });
        }
        assert!(past_7 > 10, "{part}: {past_7} writes at 7 with a pointer that counts");
    }
}

#[test]
fn waits_registers_and_hung_are_the_models() {
    let (mut waits, mut hung) = (0, 0);
    for story in stories() {
        let unasked = MOST_EVENTS - 2;
        along(story, |step, _, device| {
            for m in [0, 1] {
                let (own, written) = (&device.masters[m], &step.after[m]);
                let requests = own.has(LOCK_REQ);
                assert_eq!(written.requests, requests, "event {}", step.number);
                let waiting = requests && device.owner() != Some(m);
                assert_eq!(step.scene.waits[m], waiting, "event {}", step.number);
                assert_eq!(written.pointer, own.pointer, "event {}", step.number);
                assert_eq!(written.port_open, own.port != Port::AtRest, "event {}", step.number);
                assert_eq!(written.rt, own.rt, "event {}", step.number);
                assert_eq!(written.idle_timer, own.has(IDLE_TIMER_DIS), "event {}", step.number);
                waits += usize::from(waiting);
            }
            if step.number <= unasked {
                assert_eq!(step.scene.hung, device.is_hung(), "event {}", step.number);
                hung += usize::from(device.is_hung());
            }
        });
    }
    assert!(waits > 1000 && hung > 10, "{waits} waits, {hung} hung");
}

/// Who claims and on what ground, and that a claim is told in the event that makes it.
#[test]
fn claims_and_their_grounds_are_the_models() {
    let mut seen = [0; 3];
    for story in stories() {
        along(story, |step, before, after| {
            let scene = &step.scene;
            assert_eq!(scene.claimant.map(|m| m as usize), after.claimant(), "{}", step.number);
            assert_eq!(scene.ground.map_or(0, Ground::number), after.ground(), "{}", step.number);
            let told = step.changes.iter().find_map(|change| match change {
                Change::Claims(master, ground) => Some((*master as usize, *ground)),
                _ => None,
            });
            let made = after.claim.filter(|_| before.claimant() != after.claimant());
            let made = made.map(|claim| (claim.master, claim.ground.number()));
            assert_eq!(told.map(|(m, ground)| (m, ground.number())), made, "{}", step.number);
            if let Some((_, ground)) = told {
                seen[ground as usize] += 1;
            }
        });
    }
    assert!(seen.iter().all(|&times| times > 5), "{seen:?}");
}

/// How a grant ended, as the model's own state tells it.
#[test]
fn ends_of_grants_are_the_models() {
    let mut seen = [0; 3];
    for story in stories() {
        along(story, |step, before, after| {
            let ended = before.owner().filter(|_| before.owner() != after.owner());
            let told = step.changes.iter().find_map(|change| match change {
                Change::GrantEnded(master, how) => Some((*master as usize, *how)),
                _ => None,
            });
            assert_eq!(told.map(|told| told.0), ended, "event {}", step.number);
            let Some((m, how)) = told else { return };
            let was_reset = *after == reset_of(before, after.hold);
            let expected = match (was_reset, lost(step, m, before)) {
                (true, _) => GrantEnd::Reset,
                (_, true) => GrantEnd::Lost,
                _ => GrantEnd::LetGo,
            };
            assert_eq!(how, expected, "event {}", step.number);
            seen[how as usize] += 1;
        });
    }
    assert!(seen.iter().all(|&times| times > 5), "{seen:?}");
}

/// The device that a reset makes of this one.
fn reset_of(before: &Device, hold: i64) -> Device {
    let mut device = before.clone();
    device.reset(hold);
    device
}

/// True if the model's INT_STATUS shows a loss in this step: the bit is cleared before it, so that
/// only the step itself can set it.
fn lost(step: &Step, m: usize, before: &Device) -> bool {
    let mut device = before.clone();
    device.masters[m].int_status = 0;
    device.step(step.event.bytes());
    device.masters[m].int_status & model::device::INT_LOST != 0
}

/// Why a controller waits while nobody owns the bus: the words follow the model's claimant.
#[test]
fn the_reason_of_a_wait_is_the_models() {
    let mut seen = [0; 3];
    for story in stories() {
        along(story, |step, _, device| {
            for master in Master::BOTH {
                let m = master as usize;
                if !step.scene.waits[m] {
                    continue;
                }
                let why = why_it_waits(step, master, 0);
                let port = device.masters[m].port;
                let case = match device.owner() {
                    Some(owner) => {
                        assert_eq!(owner, 1 - m);
                        let rt = device.masters[owner].rt;
                        assert!(why.contains(&format!("RT {rt:02X}h")), "{why}");
                        continue;
                    }
                    None if port != Port::AtRest => ("its own port", 0),
                    None if device.claimant() == Some(1 - m) && device.hold == 0 => ("claims", 1),
                    None => ("soft reset", 2),
                };
                assert!(why.contains(case.0), "event {}: {why}", step.number);
                assert!(case.1 != 2 || device.hold > 0, "event {}: no hold", step.number);
                assert!(!device.levels().scl || !why.contains(" or "), "{}: {why}", step.number);
                seen[case.1] += 1;
            }
        });
    }
    assert!(seen.iter().all(|&times| times > 0), "{seen:?}");
}

/// The totals by a count over the model's states, and every tick in one of three.
#[test]
fn totals_are_the_models() {
    for story in stories() {
        let mut ticks = 0;
        let mut counted = [[0; 3]; 2];
        along(story, |step, _, device| {
            if step.event != Event::Tick {
                return;
            }
            ticks += 1;
            for m in [0, 1] {
                let owns = device.owner() == Some(m);
                let waits = device.masters[m].has(LOCK_REQ) && !owns;
                let is = [owns, device.closed_for() == Some(m), waits];
                (0..3).for_each(|place| counted[m][place] += usize::from(is[place]));
            }
        });
        assert_eq!(story.ticks(), ticks);
        for master in Master::BOTH {
            let share = share(story, master);
            let [owned, connected, waited] = counted[master as usize];
            assert_eq!((share.owned, share.connected, share.waited), (owned, connected, waited));
            assert_eq!(share.waits.iter().map(|wait| wait.ticks).sum::<usize>(), waited);
            let granted_waits =
                share.waits.iter().filter(|wait| matches!(wait.end, WaitEnd::Granted { .. }));
            assert!(granted_waits.count() <= share.granted);
            let standing = usize::from(story.steps.last().unwrap().scene.owner == Some(master));
            assert_eq!(share.granted, share.lost + share.let_go + share.reset + standing);
        }
    }
}
