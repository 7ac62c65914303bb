//! What a controller has set lasts: over random runs its settings change by its own byte or a reset alone.

mod bench;
use bench::*;
use model::device::{IDLE_TIMER_DIS, PRIORITY, SMBUS_DIS, SMBUS_SWRST};
use model::event::{read_event, Event};
use model::nights::Night;
use model::part::BOTH_KINDS;
use model::traces::event_list_of;

/// The bits of CONTR that are settings.
const SETTINGS: u8 = PRIORITY | SMBUS_DIS | IDLE_TIMER_DIS | SMBUS_SWRST;

/// How often each setting changed: RT, the bits of CONTR, INT_MSK.
type Changes = [u64; 3];

/// The register and the byte that m writes in this event, if any.
fn written(before: &Device, event: [u8; 4], m: usize) -> Option<(u8, u8)> {
    let pointer = before.masters[m].pointer;
    match read_event(event) {
        Ok(Event::Write { master, value }) if master == m => Some((pointer, value)),
        Ok(Event::Pair { values }) => Some((pointer, values[m])),
        _ => None,
    }
}

/// Holds an accepted step that is no reset to what each controller wrote in it.
fn hold(before: &Device, event: [u8; 4], after: &Device, changes: &mut Changes) {
    for m in [0, 1] {
        let (was, is) = (&before.masters[m], &after.masters[m]);
        let byte = written(before, event, m);
        let granted = before.owner() == Some(m);
        let [mut rt, mut contr, mut int_msk] = [was.rt, was.contr & SETTINGS, was.int_msk];
        match byte {
            Some((1, value)) => contr = value & SETTINGS,
            Some((3, value)) if !granted => rt = value,
            Some((5, value)) => int_msk = value & 0x7F,
            _ => {}
        }
        assert_eq!((is.rt, is.contr & SETTINGS, is.int_msk), (rt, contr, int_msk));
        let differ =
            [is.rt != was.rt, (is.contr ^ was.contr) & SETTINGS != 0, is.int_msk != was.int_msk];
        changes.iter_mut().zip(differ).for_each(|(count, differ)| *count += u64::from(differ));
    }
}

/// "A controller's RT changes only by its own byte at register 3 while it is not granted, or by a reset;
/// PRIORITY, SMBUS_DIS, IDLE_TIMER_DIS and SMBUS_SWRST only by its own CONTR byte or a reset; INT_MSK only
/// by its own byte at 5 or a reset."
#[test]
fn settings_kept() {
    let mut changes = Changes::default();
    let (mut losses, mut stored_while_granted) = (0, 0);
    for seed in 0..600 {
        let kind = BOTH_KINDS[seed as usize % 2];
        let mut device = Device::power_up_of(kind);
        let mut night = Night::new(seed, true, Some(0..=255));
        let list = event_list_of(kind, seed, 400);
        for listed in list {
            let event = if seed % 3 == 0 { night.next_event(&device) } else { listed };
            let before = device.clone();
            let answer = device.step(event);
            if answer[0] >= 2 || read_event(event).is_ok_and(|event| event.is_reset()) {
                continue;
            }
            hold(&before, event, &device, &mut changes);
            losses += u64::from(before.owner().is_some() && device.owner() != before.owner());
            let to_rt = |m: usize| matches!(written(&before, event, m), Some((3, _)));
            stored_while_granted += u64::from(before.owner().is_some_and(to_rt));
        }
    }
    println!(
        "{changes:?} changes, {losses} ends of grants, {stored_while_granted} bytes while granted"
    );
    assert!(changes.iter().all(|&count| count > 1000));
    assert!(losses > 1000 && stored_while_granted > 100);
}
