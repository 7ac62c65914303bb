//! Two controllers that start by their sheets in any order, and one that starts again while it owns.

mod bench;
use bench::*;
use model::device::{IDLE_TIMER_DIS, INT_GRANTED, INT_LOST, LOCK_REQ, PRIORITY};
use model::orders::{order_of, patterns};
use model::part::BOTH_KINDS;
use model::rng::Rng;

/// What a pair of sheets orders, controller 0's first.
#[derive(Clone, Copy, Debug)]
struct Order {
    reserves: [u8; 2],
    priorities: [u8; 2],
    idles: [u8; 2],
}

impl Order {
    fn any(rng: &mut Rng) -> Order {
        let mut two = |values: &[u8]| [rng.pick(values), rng.pick(values)];
        let reserves = two(&[0, 1, 2, 3, 9, 50, 255]);
        Order { reserves, priorities: two(&[0, 1]), idles: two(&[0, 1]) }
    }

    fn starts(&self) -> [Vec<[u8; 4]>; 2] {
        starts_of(self.reserves, self.priorities, self.idles)
    }

    /// RT, priority and idle are as ordered.
    fn assert_kept(&self, device: &Device) {
        for m in [0, 1] {
            let own = &device.masters[m];
            assert_eq!(own.rt, self.reserves[m]);
            assert_eq!(own.has(PRIORITY), self.priorities[m] == 1);
            assert_eq!(own.has(IDLE_TIMER_DIS), self.idles[m] == 1);
        }
    }
}

/// The controller whose CONTR byte, its fifth event, comes first.
fn first_to_ask(pattern: &[usize]) -> usize {
    let fifth = |m: usize| pattern.iter().enumerate().filter(|place| *place.1 == m).nth(4);
    usize::from(fifth(1).unwrap().0 < fifth(0).unwrap().0)
}

/// All 924 orders without ticks: both requests stand, and "the owner is the one whose CONTR byte came
/// first". Its partner then owns at the tick at which that reserve runs out, from either start.
#[test]
fn starts_in_any_order() {
    let patterns = patterns(6, 6);
    assert_eq!(patterns.len(), 924);
    for seed in 0..12 {
        let order = Order::any(&mut Rng::new(seed));
        let kind = BOTH_KINDS[seed as usize % 2];
        for pattern in &patterns {
            let mut device = Device::power_up_of(kind);
            let answer = run(&mut device, &order_of(pattern, &order.starts()));
            order.assert_kept(&device);
            let first = first_to_ask(pattern);
            assert_eq!(owner(answer), Some(first as u8));
            assert!(device.masters.iter().all(|own| own.has(LOCK_REQ)));
            let turn = match (order.reserves[first], order.idles[first]) {
                (0, 0) => None,
                (0, _) => Some(kind.idle_ticks() as usize),
                (reserve, _) => Some(usize::from(reserve)),
            };
            assert_turn(&mut device, first, turn);
        }
    }
}

/// The owner keeps the bus until this tick, at which its partner has it; or for 600 ticks.
fn assert_turn(device: &mut Device, first: usize, turn: Option<usize>) {
    for _ in 1..turn.unwrap_or(600) {
        assert_eq!(owner(ticks(device, 1)), Some(first as u8));
    }
    if turn.is_some() {
        assert_eq!(owner(ticks(device, 1)), Some(1 - first as u8));
    }
}

/// Ticks and line changes that come between two events.
fn between(rng: &mut Rng) -> Vec<[u8; 4]> {
    let mut level = || rng.below(2) as u8;
    let any = lines(level(), level(), level());
    match rng.below(12) {
        0..=3 => vec![tick(); rng.between(1, 4) as usize],
        4 => vec![tick(); rng.between(5, 300) as usize],
        5 => vec![any, tick()],
        6 => vec![lines(1, 0, 1), tick(), lines(1, 1, 1)],
        7 => vec![any, lines(1, 0, 1), lines(1, 1, 1)],
        _ => vec![],
    }
}

/// Steps the order with anything between its events. Gives who owned at some time.
fn run_among_ticks(rng: &mut Rng, device: &mut Device, order: &[[u8; 4]]) -> [bool; 2] {
    let mut owned = [false; 2];
    for event in order {
        for event in [vec![*event], between(rng)].concat() {
            run(device, &[event]);
            if let Some(m) = device.owner() {
                owned[m] = true;
            }
        }
    }
    owned
}

/// All 924 orders "with any ticks and line changes between them": what was ordered is there, and "each
/// request stands or was lost after a grant".
#[test]
fn starts_in_any_order_among_ticks() {
    let (mut stood, mut lost) = ([0, 0], [0, 0]);
    for seed in 0..24 {
        let rng = &mut Rng::new(seed);
        for pattern in patterns(6, 6) {
            let order = Order::any(rng);
            let mut device = Device::power_up_of(BOTH_KINDS[seed as usize % 2]);
            let owned = run_among_ticks(rng, &mut device, &order_of(&pattern, &order.starts()));
            order.assert_kept(&device);
            for m in [0, 1] {
                let own = &device.masters[m];
                let after_a_grant = INT_GRANTED | INT_LOST;
                let was_lost = owned[m] && own.int_status & after_a_grant == after_a_grant;
                assert!(own.has(LOCK_REQ) != was_lost, "{m}: {device:?}");
                stood[m] += u32::from(own.has(LOCK_REQ));
                lost[m] += u32::from(was_lost);
            }
        }
    }
    println!("stood {stood:?}, lost {lost:?}");
    assert!(stood.iter().chain(&lost).all(|&count| count > 1000));
}

/// Reserves before and after, with ticks between the grant and the second start.
fn each_reboot(mut check: impl FnMut(Kind, usize, [u8; 2], usize)) {
    for kind in BOTH_KINDS {
        for m in [0, 1] {
            for old in [0, 1, 2, 7, 50, 255] {
                for new in [0, 1, 3, 60, 255] {
                    for passed in [0, 1, 6, 49, 254] {
                        // The first grant still lasts when the second start comes.
                        if old != new && (old == 0 || passed < usize::from(old)) {
                            check(kind, m, [old, new], passed);
                        }
                    }
                }
            }
        }
    }
}

/// m's start with this reserve, and its partner's with 9. No timer is on.
fn starts_with(m: usize, reserve: u8) -> [Vec<[u8; 4]>; 2] {
    let mut reserves = [9, 9];
    reserves[m] = reserve;
    starts_of(reserves, [0, 0], [0, 0])
}

/// "An owner that sends its six events again keeps its old reserve until that grant ends." A reserve
/// without limit does not end by itself, whatever the new sheet orders.
#[test]
fn an_owner_that_starts_again() {
    each_reboot(|kind, m, [old, new], passed| {
        let mut device = started(kind, m, &starts_with(m, old));
        ticks(&mut device, passed);
        run(&mut device, &starts_with(m, new)[m]);
        assert_eq!((device.owner(), device.masters[m].rt), (Some(m), old));
        if old == 0 {
            assert_turn(&mut device, m, None);
            run(&mut device, &[command(m as u8, 1), write(m as u8, 0), stop(m as u8)]);
        } else {
            assert_turn(&mut device, m, Some(usize::from(old) - passed));
        }
        // The grant has ended. RT is still the old one, until the next start.
        assert_eq!((device.owner(), device.masters[m].rt), (Some(1 - m), old));
        run(&mut device, &starts_with(m, new)[m]);
        assert_eq!(device.masters[m].rt, new);
    });
}

/// "One that withdraws first does not": its next grant has the new reserve, be it after its partner's
/// turn or at once.
#[test]
fn an_owner_that_withdraws_and_starts_again() {
    each_reboot(|kind, m, [old, new], passed| {
        for partner_asks in [true, false] {
            let starts = starts_with(m, old);
            let mut device = Device::power_up_of(kind);
            run(&mut device, &starts[m]);
            if partner_asks {
                run(&mut device, &starts[1 - m]);
            }
            ticks(&mut device, passed);
            let by = m as u8;
            run(&mut device, &[command(by, 1), write(by, 0), stop(by)]);
            run(&mut device, &starts_with(m, new)[m]);
            assert_eq!(device.masters[m].rt, new);
            if partner_asks {
                assert_turn(&mut device, 1 - m, Some(9));
            }
            assert_eq!(device.owner(), Some(m));
            run(&mut device, &starts[1 - m]);
            assert_turn(&mut device, m, (new != 0).then_some(usize::from(new)));
        }
    });
}
