//! The way back from a controller, m, that sends nothing: its partner p resets the part, starts again by
//! its sheet with a reserve, and owns; and m, coming back, waits no longer than that reserve and a tick.

mod bench;
use bench::*;
use model::crashes::{between, crashed};
use model::device::{Port, LOCK_REQ, SMBUS_SWRST};
use model::image::read_image;
use model::images::any_image;
use model::nights::Night;
use model::part::BOTH_KINDS;
use model::rng::Rng;

/// The six events of p's sheet with this reserve and any other boxes.
fn six_events(rng: &mut Rng, p: usize, reserve: u8) -> Vec<[u8; 4]> {
    let mut flags = || [rng.below(2) as u8, rng.below(2) as u8];
    let starts = starts_of([reserve, reserve], flags(), flags());
    starts[p].clone()
}

/// Mostly short reserves.
fn reserve(rng: &mut Rng) -> u8 {
    let most = rng.pick(&[1, 3, 20, 60, 255]);
    rng.between(1, most) as u8
}

/// Any state: one that a run reaches, or one with any value in every field.
fn any_state(rng: &mut Rng) -> Device {
    if rng.percent(70) {
        return crashed(rng);
    }
    read_image(&any_image(rng)).expect("every field is in its range")
}

/// The recipe with anything between its events, and m silent. p has to own at its last STOP or at this
/// tick after the GENERAL CALL, whichever is later, and not before. Gives the ticks up to the grant, and
/// those up to the last STOP.
fn recover(rng: &mut Rng, device: &mut Device, p: usize, reserve: u8) -> (usize, usize) {
    let from = if device.masters[p].has(SMBUS_SWRST) { 35 } else { 0 };
    run(device, &[general_call(p as u8, 6)]);
    let (mut count, mut at_stop) = (0, None);
    let mut script = six_events(rng, p, reserve);
    script.reverse();
    while at_stop.is_none() || count < from {
        let mut events = between(rng, device, p as u8);
        events.extend(script.pop());
        for event in events {
            let outcome = device.step(event)[0];
            count += usize::from(event == tick());
            let is_last = outcome == 0 && script.is_empty() && event == stop(p as u8);
            if is_last && at_stop.is_none() {
                at_stop = Some(count);
            }
            let due = at_stop.is_some() && count >= from;
            assert_eq!(device.owner(), due.then_some(p), "after {count} ticks: {device:?}");
            if due {
                return (count, at_stop.unwrap());
            }
        }
    }
    unreachable!("p owns at the last STOP or at the tick {from}");
}

/// "p owns at its last STOP, or, where SMBUS_SWRST was set, at the later of it and the 35th tick (not at
/// the 34th), with reserve R".
#[test]
fn recovery_recipe() {
    let (mut at_stop, mut at_35, mut late) = (0, 0, 0);
    for seed in 0..20_000 {
        let rng = &mut Rng::new(seed);
        let mut device = any_state(rng);
        let (p, reserve) = (rng.below(2) as usize, reserve(rng));
        let held = device.masters[p].has(SMBUS_SWRST);
        let (count, stopped) = recover(rng, &mut device, p, reserve);
        let own = &device.masters[p];
        assert_eq!((own.rt, device.reserve_count), (reserve, i64::from(reserve)));
        assert_eq!(device.grant.as_ref().map(|grant| grant.reserve), Some(i64::from(reserve)));
        assert!(own.has(LOCK_REQ) && own.port == Port::AtRest);
        at_stop += u32::from(!held && count == stopped);
        at_35 += u32::from(held && count == 35 && stopped < 35);
        late += u32::from(held && stopped > 35 && count == stopped);
    }
    println!("no hold {at_stop}, at the 35th tick {at_35}, at a later STOP {late}");
    assert!(at_stop > 2000 && at_35 > 1000 && late > 300);
}

/// The ticks of m's standing request behind p, as far back as p took at most one tick for a STOP.
#[derive(Default)]
struct Watch {
    ticks: u64,
    stretch: u64,
}

impl Watch {
    fn see(&mut self, m: usize, before: &Device, event: [u8; 4], after: &Device) {
        let owes_a_stop = |device: &Device| {
            let p = 1 - m;
            let claims = device.claimant() == Some(p) && device.owner() != Some(p);
            claims && device.masters[p].port != Port::AtRest
        };
        if !before.masters[m].has(LOCK_REQ) || !after.masters[m].has(LOCK_REQ) {
            *self = Watch::default();
        } else if event == tick() {
            self.ticks += 1;
            self.stretch += u64::from(owes_a_stop(before));
            if self.stretch > 1 {
                self.ticks = 1;
            }
        }
        if !owes_a_stop(after) {
            self.stretch = 0;
        }
    }
}

/// "And m, coming back, is in by R + 1 ticks (with RT stored anew)": both go on at random, and no reset
/// comes. p stores 1 to R, or keeps R.
#[test]
fn the_crashed_one_comes_back() {
    let (mut at_the_figure, mut a_tick_earlier) = (0, 0);
    for seed in 0..4_000 {
        let rng = &mut Rng::new(seed);
        let mut device = any_state(rng);
        let (p, reserve) = (rng.below(2) as usize, reserve(rng));
        recover(rng, &mut device, p, reserve);
        let (m, figure) = (1 - p, u64::from(reserve) + 1);
        let mut night = Night::new(seed, false, rng.percent(50).then_some(1..=reserve));
        let mut watch = Watch::default();
        for _ in 0..200 + 6 * u32::from(reserve) {
            let event = night.next_event(&device);
            let before = device.clone();
            device.step(event);
            watch.see(m, &before, event, &device);
            if !device.is_idle() || device.masters[m].port != Port::AtRest {
                continue;
            }
            let is_in = device.owner() == Some(m);
            assert!(watch.ticks < figure || is_in, "seed {seed}: {} {device:?}", watch.ticks);
            let from_p = before.owner() == Some(p) && event == tick();
            at_the_figure += u32::from(watch.ticks == figure && is_in && from_p);
            a_tick_earlier += u32::from(watch.ticks == figure - 1 && !is_in);
        }
    }
    println!("at the figure {at_the_figure}, a tick earlier {a_tick_earlier}");
    assert!(at_the_figure > 30 && a_tick_earlier > 100);
}

/// Where p only owns from then on, on an idle bus, m is in at the very tick R after the grant, for every R.
#[test]
fn every_reserve_ends() {
    for (kind, p) in BOTH_KINDS.into_iter().flat_map(|kind| [(kind, 0), (kind, 1)]) {
        for reserve in 1..=255 {
            let rng = &mut Rng::new(u64::from(reserve));
            let mut device = owned_by_on(kind, 1 - p, 0, 0x01);
            run(&mut device, &[general_call(p, 6)]);
            run(&mut device, &six_events(rng, usize::from(p), reserve));
            set(&mut device, 1 - p, 1, 0x01);
            for _ in 1..reserve {
                assert_eq!(owner(ticks(&mut device, 1)), Some(p));
            }
            assert_eq!(owner(ticks(&mut device, 1)), Some(1 - p));
        }
    }
}

/// The old recipe, GENERAL CALL 06h, COMMAND 01h, WRITE 01h, STOP: p owns without a reserve and with the
/// timer off, and m, coming back, waits 5,000 idle ticks and more: the roles are changed and no more.
#[test]
fn the_old_recipe_sets_the_next_trap() {
    for (seed, kind) in (0..20).zip(BOTH_KINDS.into_iter().cycle()) {
        let rng = &mut Rng::new(seed);
        let p = rng.below(2) as u8;
        let mut device = owned_by_on(kind, 1 - p, rng.byte(), rng.pick(&[0x01, 0x05, 0x41]));
        run(&mut device, &[general_call(p, 6), command(p, 1), write(p, 0x01), stop(p)]);
        set(&mut device, 1 - p, 1, 0x01);
        for _ in 0..5_000 {
            assert_eq!(owner(ticks(&mut device, 1)), Some(p));
            assert!(device.is_idle() && device.masters[usize::from(1 - p)].has(LOCK_REQ));
        }
    }
}
