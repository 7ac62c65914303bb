//! Demand 3 of the order (00-order.md), watched over random runs. It is said
//! here from the answers and the events, not from how the model works.

mod bench;
use bench::*;
use model::device::{Port, LOCK_REQ};
use model::event::{read_event, Event};
use model::part::BOTH_KINDS;
use model::traces::event_list_of;

/// True if master m writes LOCK_REQ 0 in this event (reading 22).
fn withdraws(before: &Device, event: [u8; 4], m: usize) -> bool {
    let value = match read_event(event) {
        Ok(Event::Write { master, value }) if master == m => value,
        Ok(Event::Pair { values }) => values[m],
        _ => return false,
    };
    before.masters[m].pointer == 1 && value & LOCK_REQ == 0
}

/// Calls `check` for each accepted step of many runs, of either kind of part.
fn each_step(mut check: impl FnMut(&Device, [u8; 4], [u8; 4], &Device)) {
    for seed in 0..400 {
        let kind = BOTH_KINDS[seed as usize % 2];
        let mut device = Device::power_up_of(kind);
        let length = if seed / 2 % 10 == 0 { 2000 } else { 300 };
        for event in event_list_of(kind, seed, length) {
            let before = device.clone();
            let answer = device.step(event);
            if answer[0] >= 2 {
                assert_eq!(device, before);
            } else {
                check(&before, event, answer, &device);
            }
        }
    }
}

/// Calls `check` for each of those steps that begins with an owner: the owner, and the ticks of its
/// grant so far.
fn each_owned_step(mut check: impl FnMut(usize, u64, &Device, [u8; 4], [u8; 4], &Device)) {
    let mut ticks = 0;
    each_step(|before, event, answer, after| {
        let Some(m) = before.owner() else {
            ticks = 0;
            return;
        };
        ticks += u64::from(event == tick());
        check(m, ticks, before, event, answer, after);
        if owner(answer) != Some(m as u8) {
            ticks = 0;
        }
    });
}

fn is_reset(event: [u8; 4]) -> bool {
    read_event(event).is_ok_and(|event| event.is_reset())
}

/// "At most one controller is connected, and it holds the grant."
#[test]
fn connected_master_holds_the_grant() {
    each_step(|_, _, answer, _| {
        assert!(switch(answer).is_none() || switch(answer) == owner(answer));
        assert!(!initialising(answer) || (owner(answer).is_some() && switch(answer).is_none()));
        assert_ne!(answer[2] & 3, 3);
        assert_ne!(answer[2] & 12, 12);
    });
}

/// "A grant taken with a reserve of 1 to 255 ms lasts that many ticks unless
/// its holder withdraws or a reset comes."
#[test]
fn a_reserve_lasts() {
    each_owned_step(|m, ticks, before, event, answer, after| {
        if owner(answer) != Some(m as u8) {
            let excused = is_reset(event) || withdraws(before, event, m);
            assert!(excused || ticks >= u64::from(before.masters[m].rt));
        }
        // A reserve cannot be changed by its holder.
        assert!(after.owner() != Some(m) || before.masters[m].rt == after.masters[m].rt);
    });
}

/// "A partner whose request stands throughout [...] owns the bus by the tick at
/// which such a reserve runs out, if the bus is idle and its port at rest."
#[test]
fn a_reserve_ends() {
    each_owned_step(|m, ticks, before, event, answer, after| {
        let reserve = u64::from(before.masters[m].rt);
        let ran_out = reserve > 0 && ticks >= reserve;
        if ran_out && after.is_idle() {
            assert_ne!(owner(answer), Some(m as u8));
            let partner = 1 - m;
            let waits = before.masters[partner].has(LOCK_REQ) && after.hold == 0;
            if event == tick() && waits && after.masters[partner].port == Port::AtRest {
                assert_eq!(owner(answer), Some(partner as u8));
            }
        }
    });
}

/// "The partner is next: at once if its port is at rest, else at its STOP."
#[test]
fn the_partner_is_next() {
    each_step(|before, event, answer, after| {
        let Some(m) = before.owner() else {
            return;
        };
        let partner = 1 - m;
        if owner(answer) == Some(m as u8) || is_reset(event) {
            return;
        }
        if after.masters[partner].has(LOCK_REQ) {
            assert_eq!(after.claimant(), Some(partner));
            let at_rest = after.masters[partner].port == Port::AtRest;
            assert_eq!(owner(answer) == Some(partner as u8), at_rest);
        }
    });
}

/// The quiet rules that the model leans on: what holds between steps.
#[test]
fn states_are_settled() {
    each_step(|_, _, _, device| {
        // A step without an effect of its own finds nothing left to do.
        let mut again = device.clone();
        again.step(general_call(0, 0xFF));
        assert_eq!(&again, device);
        // The owner asks and is the claimant; nobody owns during a hold.
        if let Some(m) = device.owner() {
            assert!(device.claimant() == Some(m) && device.masters[m].has(LOCK_REQ));
            assert_eq!(device.hold, 0);
        } else {
            assert!(device.drives.scl && device.drives.sda);
        }
        assert!(device.scl_low_count <= 500 && device.sda_low_count <= 501);
        assert!(device.idle_count <= device.kind.idle_ticks() && device.hold <= 35);
        assert!(device.masters.iter().all(|m| m.contr & 2 == 0 && m.int_msk < 0x80));
    });
}
