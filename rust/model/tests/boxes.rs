//! What the boxes of a pair of sheets promise the partner, by runs of the sheets' own events: behind a
//! live holder only a reserve that is not 0, behind a silent one also the idle timer, as long as the
//! holder's CONTR keeps it on.

mod bench;
use bench::*;
use model::device::{IDLE_TIMER_DIS, LOCK_REQ, PRIORITY};
use model::part::BOTH_KINDS;
use model::wait_of::{wait_of, Wait};

/// Each kind of part with each controller as the holder.
fn each_holder(mut check: impl FnMut(Kind, usize)) {
    for kind in BOTH_KINDS {
        [0, 1].into_iter().for_each(|holder| check(kind, holder));
    }
}

/// The boxes of a pair in which the holder has this value and its partner that one.
fn two(holder: usize, own: u8, partners: u8) -> [u8; 2] {
    if holder == 0 {
        [own, partners]
    } else {
        [partners, own]
    }
}

/// A part on which the holder owns by the sheets' events and its partner waits.
fn held(kind: Kind, holder: usize, reserve: u8, idle: u8) -> Device {
    let starts = starts_of(two(holder, reserve, 9), [0, 0], two(holder, idle, 0));
    started(kind, holder, &starts)
}

/// What the sheets promise the holder's partner.
fn promised(kind: Kind, holder: usize, reserve: u8, idle: u8) -> Wait {
    let [board, house] = sheets_of(two(holder, reserve, 9), [0, 0], two(holder, idle, 0));
    wait_of(&board, &house, 1 - holder as u8, kind.number())
}

fn contr(device: &mut Device, m: usize, value: u8) {
    set(device, m as u8, 1, value);
}

/// The tick at which the partner owns, if it does within so many. Every so often, if at all, the holder
/// makes a short transfer: START and STOP between two ticks, so that the bus is idle after each tick.
fn turn(device: &mut Device, holder: usize, most: u64, every: Option<u64>) -> Option<u64> {
    for count in 1..=most {
        if owner(ticks(device, 1)) == Some(1 - holder as u8) {
            return Some(count);
        }
        assert!(device.is_idle() && device.masters[1 - holder].has(LOCK_REQ));
        assert_eq!(device.owner(), Some(holder));
        if every.is_some_and(|every| count % every == 0) {
            run(device, &[lines(1, 0, 1), lines(1, 1, 1)]);
        }
    }
    None
}

/// "With RT 00h, also with the idle timer on [...] the partner's request stands for n ticks and it does
/// not own though the bus is idle at the end (a short transfer before each limit)." A tick later each
/// time would be too late.
#[test]
fn no_reserve_and_a_transfer_before_each_limit() {
    each_holder(|kind, holder| {
        let limit = kind.idle_ticks() as u64;
        for connects in [true, false] {
            let mut device = held(kind, holder, 0, 1);
            if connects {
                contr(&mut device, holder, 0x25);
                assert_eq!(device.closed_for(), Some(holder));
            }
            let mut late = device.clone();
            assert_eq!(turn(&mut device, holder, 2_500, Some(limit - 1)), None);
            assert_eq!(turn(&mut late, holder, 2_500, Some(limit)), Some(limit));
        }
    });
}

/// "Waiting behind a live holder is bounded exactly if the reserve is not 0": every reserve, with the
/// timer on and off, against the grade.
#[test]
fn bounded_behind_a_live_holder() {
    each_holder(|kind, holder| {
        for reserve in 0..=255 {
            for idle in [0, 1] {
                let mut device = held(kind, holder, reserve, idle);
                let found = turn(&mut device, holder, 1_000, Some(20));
                assert_eq!(found, (reserve != 0).then_some(u64::from(reserve)));
                assert_eq!(found.is_some(), promised(kind, holder, reserve, idle).grade == 1);
            }
        }
    });
}

/// Behind a silent holder on an idle bus the idle timer bounds the wait too, by the part's limit.
#[test]
fn bounded_behind_a_silent_holder() {
    each_holder(|kind, holder| {
        for idle in [0, 1] {
            let found = turn(&mut held(kind, holder, 0, idle), holder, 5_000, None);
            let said = promised(kind, holder, 0, idle);
            let (grade, ticks) = match found {
                None => (3, 0),
                Some(ticks) => (2, ticks),
            };
            assert_eq!((said.grade, u64::from(said.ticks)), (grade, ticks));
            assert_eq!(found, (idle == 1).then_some(kind.idle_ticks() as u64));
        }
    });
}

/// "The boxes that do not last": with reserve 0 and idle ticked, "CONTR 05h afterwards leaves the partner
/// waiting for ever, 25h lets it in at tick 101", or at the limit of the other part.
#[test]
fn connecting_takes_the_boxes_place() {
    each_holder(|kind, holder| {
        let mut device = held(kind, holder, 0, 1);
        contr(&mut device, holder, 0x05);
        assert_eq!(turn(&mut device, holder, 6_000, None), None);
        let mut device = held(kind, holder, 0, 1);
        contr(&mut device, holder, 0x25);
        let limit = [101, 151][usize::from(kind.number())];
        assert_eq!(turn(&mut device, holder, 6_000, None), Some(limit));
    });
}

/// The next CONTR byte decides, whatever the boxes and whichever byte: both boxes are in it.
#[test]
fn the_next_contr_byte_decides() {
    each_holder(|kind, holder| {
        let limit = kind.idle_ticks() as u64;
        for (boxes, value) in (0..4).flat_map(|boxes| (0..=255).map(move |value| (boxes, value))) {
            let (priority, idle) = (boxes & 1, boxes >> 1);
            let starts = starts_of([0, 0], two(holder, priority, 0), two(holder, idle, 0));
            let mut device = started(kind, holder, &starts);
            contr(&mut device, holder, value);
            let own = &device.masters[holder];
            assert_eq!(own.has(PRIORITY), value & 0x80 != 0);
            assert_eq!(own.has(IDLE_TIMER_DIS), value & 0x20 != 0);
            if value & LOCK_REQ == 0 {
                assert_eq!(device.owner(), Some(1 - holder));
            } else {
                let found = turn(&mut device, holder, 2 * limit, None);
                assert_eq!(found, (value & 0x20 != 0).then_some(limit));
            }
        }
    });
}

/// A later turn of the holder, by its sheet's own CONTR byte: it asks again while its partner owns, the
/// partner lets go and asks anew, and the holder has yet to send its STOP.
fn about_to_hold_again(kind: Kind, holder: usize, reserve: u8, idle: u8) -> Device {
    let mut device = held(kind, holder, reserve, idle);
    assert!(turn(&mut device, holder, 255, None).is_some());
    run(&mut device, &[command(holder as u8, 1), write(holder as u8, 0x01 + 0x20 * idle)]);
    contr(&mut device, 1 - holder, 0x00);
    contr(&mut device, 1 - holder, 0x01);
    assert_eq!((device.owner(), device.claimant()), (None, Some(holder)));
    device
}

/// The figure of every reserve is met, and a tick earlier its partner still waits: the holder takes one
/// tick for its STOP. Each tick more that it takes is a tick more to wait.
#[test]
fn every_figure_is_met() {
    each_holder(|kind, holder| {
        for reserve in 1..=255 {
            let figure = promised(kind, holder, reserve, 0).ticks;
            for more in [0, 1, 70] {
                let mut device = about_to_hold_again(kind, holder, reserve, 0);
                ticks(&mut device, 1 + more);
                run(&mut device, &[stop(holder as u8)]);
                ticks(&mut device, figure as usize - 2);
                assert_eq!(device.owner(), Some(holder));
                assert_eq!(owner(ticks(&mut device, 1)), Some(1 - holder as u8));
            }
        }
    });
}

/// The idle limit counts from the grant. It has no tick for the STOP in it, as the figure of a reserve
/// has: a partner that asked before the STOP waits as many ticks more as the holder takes for it.
#[test]
fn the_idle_limit_counts_from_the_grant() {
    each_holder(|kind, holder| {
        let limit = promised(kind, holder, 0, 1).ticks;
        for late in [0, 1, 70] {
            let mut device = about_to_hold_again(kind, holder, 0, 1);
            ticks(&mut device, late);
            assert_eq!(device.owner(), None);
            run(&mut device, &[stop(holder as u8)]);
            assert_eq!(turn(&mut device, holder, 200, None), Some(u64::from(limit)));
        }
    });
}
