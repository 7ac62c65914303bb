//! How a controller is told of its grant and of its loss: INT_STATUS bits 2 and 1, and its line.

mod bench;
use bench::*;
use model::crashes::crashed;
use model::device::{INT_GRANTED, INT_LOST, LOCK_REQ};
use model::event::{read_event, Event};
use model::nights::Night;
use model::part::BOTH_KINDS;
use model::rng::Rng;
use model::sheet::events_of_sheets;
use model::sheets::complete_pair;

/// The byte that m writes in this event, if the event is accepted and m writes one.
fn byte_of(event: [u8; 4], answer: [u8; 4], m: usize) -> Option<u8> {
    match read_event(event) {
        _ if answer[0] > 1 => None,
        Ok(Event::Write { master, value }) if master == m => Some(value),
        Ok(Event::Pair { values }) => Some(values[m]),
        _ => None,
    }
}

/// What one event does to m.
struct Happened {
    granted: bool,
    lost: bool,
    withdrew: bool,
    reset: bool,
    /// m wrote INT_MSK.
    masked: bool,
}

/// A grant is m owning after and not before. An end of it is a reset, a withdrawal (an accepted byte of m's
/// that clears LOCK_REQ) or, if neither, a loss.
fn happened(
    before: &Device,
    event: [u8; 4],
    answer: [u8; 4],
    after: &Device,
    m: usize,
) -> Happened {
    let byte =
        |pointer: u8| byte_of(event, answer, m).filter(|_| before.masters[m].pointer == pointer);
    let ended = before.owner() == Some(m) && after.owner() != Some(m);
    let reset = answer[0] == 0 && read_event(event).is_ok_and(|event| event.is_reset());
    let withdrew = ended && byte(1).is_some_and(|value| value & LOCK_REQ == 0);
    Happened {
        granted: after.owner() == Some(m) && before.owner() != Some(m),
        lost: ended && !reset && !withdrew,
        withdrew,
        reset: ended && reset,
        masked: byte(5).is_some(),
    }
}

#[derive(Default, Debug)]
struct Tally {
    grants: u64,
    losses: u64,
    withdrawals: u64,
    resets: u64,
    told: [u64; 2],
    not_told: [u64; 2],
    again: [u64; 2],
}

/// "INT_STATUS bit 2 rises exactly at m's grant and is set after each; bit 1 exactly at a loss, never at a
/// withdrawal or a reset; with the mask bit 0, INTm is asserted in the answer to that very event."
fn assert_told(
    tally: &mut Tally,
    before: &Device,
    event: [u8; 4],
    answer: [u8; 4],
    after: &Device,
) {
    for m in [0, 1] {
        let is = happened(before, event, answer, after, m);
        let (was, own) = (&before.masters[m], &after.masters[m]);
        let asserted = answer[3] >> m & 1 == 1;
        for (place, (bit, at)) in
            [(INT_GRANTED, is.granted), (INT_LOST, is.lost)].into_iter().enumerate()
        {
            let (stood, stands) = (was.int_status & bit != 0, own.int_status & bit != 0);
            assert_eq!(stands && !stood, at && !stood, "{m}, {bit}, {event:?}: {before:?}");
            if !at {
                continue;
            }
            assert!(stands, "{m}, {bit}, {event:?}: {before:?}");
            // No event grants or takes away and writes the mask at once.
            assert!(!is.masked && was.int_msk == own.int_msk, "{m}, {event:?}: {before:?}");
            let open = own.int_msk & bit == 0;
            assert!(asserted || !open, "{m}, {bit}, {event:?}: {before:?}");
            tally.told[place] += u64::from(open);
            tally.not_told[place] += u64::from(!asserted);
            tally.again[place] += u64::from(stood);
        }
        tally.grants += u64::from(is.granted);
        tally.losses += u64::from(is.lost);
        tally.withdrawals += u64::from(is.withdrew);
        tally.resets += u64::from(is.reset);
    }
}

/// Over random runs with resets, masks written and interrupts cleared.
#[test]
fn grant_and_loss_told() {
    let mut tally = Tally::default();
    for seed in 0..6_000 {
        let rng = &mut Rng::new(seed);
        let mut device = crashed(rng);
        let most = rng.pick(&[0, 2, 20]);
        let mut night = Night::new(seed, true, Some(0..=most));
        for _ in 0..150 {
            let mut event = night.next_event(&device);
            if rng.percent(10) {
                let m = rng.below(2) as u8;
                event = rng.pick(&[command(m, 4), command(m, 5), write(m, 0), write(m, 0x3F)]);
            }
            let before = device.clone();
            let answer = device.step(event);
            assert_told(&mut tally, &before, event, answer, &device);
        }
    }
    println!("{tally:?}");
    assert!(tally.withdrawals > 500 && tally.resets > 500);
    assert!([tally.told, tally.not_told, tally.again].concat().iter().all(|&count| count > 100));
}

/// Which mask counts where an event both takes the bus away and writes the mask. In a run there is no such
/// event; here the reserve is made to run out between two events. The line goes by the mask after it. No
/// event grants and writes the mask at once in any state: the writer's port is open.
#[test]
fn the_mask_after_the_event_counts() {
    for (m, old, new) in [(0, 0x7F, 0x7D), (1, 0x7D, 0x7F), (1, 0x00, 0x02), (0, 0x02, 0x00)] {
        let mut device = owned_by(m, 2, 0x01);
        set(&mut device, m, 4, 0x3F);
        set(&mut device, m, 5, old);
        run(&mut device, &[command(m, 5)]);
        device.reserve_count = 0;
        let answer = run(&mut device, &[write(m, new)]);
        assert_eq!(device.masters[usize::from(m)].int_status, INT_LOST);
        assert_eq!((owner(answer), answer[3] >> m & 1), (None, u8::from(new & INT_LOST == 0)));
    }
}

/// "After the sheets' twelve events INT_MSK is 7Fh, so the waiting one is not told by its line": the line is
/// not asserted in any run in which the controller does not write INT_MSK, resets and all.
#[test]
fn the_waiting_one_is_not_told() {
    let (mut granted, mut asserted) = (0, 0);
    for seed in 0..3_000 {
        let rng = &mut Rng::new(seed);
        let [board, house] = complete_pair(rng);
        let mut device = Device::power_up_of(rng.pick(&BOTH_KINDS));
        run(&mut device, &events_of_sheets(&board, &house).unwrap());
        assert!(device.masters.iter().all(|own| own.int_msk == 0x7F));
        let mut night = Night::new(seed, true, Some(0..=20));
        let mut written = [false; 2];
        for _ in 0..200 {
            let event = night.next_event(&device);
            let before = device.clone();
            let answer = device.step(event);
            for m in [0, 1] {
                let is = happened(&before, event, answer, &device, m);
                written[m] |= is.masked;
                let told = answer[3] >> m & 1 == 1;
                assert!(!told || written[m], "{m}, {event:?}: {device:?}");
                granted += u32::from(is.granted && !written[m]);
                asserted += u32::from(told);
            }
        }
    }
    println!("granted and not told {granted}, told after INT_MSK was written {asserted}");
    assert!(granted > 1_000 && asserted > 1_000);
}

/// The bytes that unmask it: after 7Bh at INT_MSK the waiting one is told of its grant, after 7Dh of its
/// loss, after 79h of both, in the answers to the very ticks.
#[test]
fn the_byte_that_unmasks() {
    for (kind, p) in BOTH_KINDS.into_iter().flat_map(|kind| [(kind, 0), (kind, 1)]) {
        for mask in 0..=0x7F {
            let starts = starts_of([3, 3], [0, 0], [0, 0]);
            let mut device = started(kind, 1 - p, &starts);
            set(&mut device, p as u8, 5, mask);
            let told = |answer: [u8; 4]| answer[3] >> p & 1 == 1;
            let two = ticks(&mut device, 2);
            let grant = ticks(&mut device, 1);
            assert_eq!((owner(two), told(two)), (Some(1 - p as u8), false));
            assert_eq!((owner(grant), told(grant)), (Some(p as u8), mask & 0x04 == 0));
            set(&mut device, p as u8, 4, 0x3F);
            let more = ticks(&mut device, 2);
            let loss = ticks(&mut device, 1);
            assert_eq!((owner(more), told(more)), (Some(p as u8), false));
            assert_eq!((owner(loss), told(loss)), (None, mask & 0x02 == 0));
        }
    }
}
