//! What a complete pair of sheets guarantees over the whole night, tried on random runs: behind a
//! reserve of 1 to 255 a controller whose request stands over that many ticks and one owns the bus.

use std::collections::HashSet;

mod bench;
use bench::*;
use model::device::{Port, LOCK_REQ};
use model::image::image_of;
use model::nights::Night;
use model::part::BOTH_KINDS;
use model::rng::Rng;
use model::sheet::*;
use model::sheets::complete_pair;

/// A controller that claims and is not granted, for its port is open: its STOP is due.
fn owes_a_stop(device: &Device, m: usize) -> bool {
    device.claimant() == Some(m)
        && device.owner() != Some(m)
        && device.masters[m].port != Port::AtRest
}

/// What is counted of the run that ends now, as far back as one controller's request stands.
#[derive(Clone, Default)]
struct Watch {
    /// Its ticks, as far back as the other took at most one tick at a stretch for a STOP.
    ticks: u64,
    /// All its ticks, whatever the other's STOPs.
    all: u64,
    /// The ticks of the other's present stretch.
    stretch: u64,
}

impl Watch {
    fn see(&mut self, m: usize, before: &Device, event: [u8; 4], after: &Device) {
        let stands = |device: &Device| device.masters[m].has(LOCK_REQ);
        if !stands(before) || !stands(after) {
            *self = Watch::default();
            return;
        }
        if event == tick() {
            self.ticks += 1;
            self.all += 1;
            if owes_a_stop(before, 1 - m) {
                self.stretch += 1;
            }
            if self.stretch > 1 {
                self.ticks = 1;
            }
        }
        if !owes_a_stop(after, 1 - m) {
            self.stretch = 0;
        }
    }
}

/// How often a wait lasted to the figure, how often one was still going on a tick earlier, and how
/// often one lasted longer because the other did not send its STOP.
#[derive(Default, Debug)]
struct Tally {
    at_the_figure: u64,
    a_tick_earlier: u64,
    without_a_stop: u64,
}

/// Runs a night after the events, and holds every wait behind m's partner to the figures.
fn hold(
    device: &mut Device,
    night: &mut Night,
    length: usize,
    most: [u8; 2],
    tally: &mut [Tally; 2],
) {
    let mut watches = [Watch::default(), Watch::default()];
    for _ in 0..length {
        let event = night.next_event(device);
        let before = device.clone();
        device.step(event);
        for m in [0, 1] {
            watches[m].see(m, &before, event, device);
            let figure = u64::from(most[1 - m]) + 1;
            let (ticks, owns) = (watches[m].ticks, device.owner() == Some(m));
            if !device.is_idle() || device.masters[m].port != Port::AtRest {
                continue;
            }
            assert!(ticks < figure || owns, "{m} waits after {ticks} ticks, {figure}: {device:?}");
            let in_time = ticks == figure && event == tick() && before.owner() == Some(1 - m);
            tally[m].at_the_figure += u64::from(in_time);
            tally[m].a_tick_earlier += u64::from(ticks == figure - 1 && !owns);
            tally[m].without_a_stop += u64::from(watches[m].all >= figure && !owns);
        }
    }
}

/// Mostly short ones, so that many turns fit a run.
fn reserve(rng: &mut Rng) -> u8 {
    let most = rng.pick(&[3, 20, 20, 60, 255]);
    rng.between(1, most) as u8
}

/// A random complete pair with these reserves, each on the sheet that orders it.
fn pair_with(rng: &mut Rng, reserves: [u8; 2]) -> [Vec<u8>; 2] {
    let mut pair = complete_pair(rng);
    for (m, reserve) in reserves.into_iter().enumerate() {
        let found = look_up(&pair[0], &pair[1], RESERVE, m as u8);
        let (sheet, at) = (usize::from(found.sheet == Sheet::House), found.offset);
        pair[sheet][at + 1] = reserve;
    }
    pair
}

/// Many nights of both kinds of part. RT is stored anew with 1 to the longer reserve, or not at all.
fn nights(seeds: std::ops::Range<u64>, anew: bool) {
    let mut tallies: [[Tally; 2]; 2] = Default::default();
    for seed in seeds {
        let mut rng = Rng::new(seed);
        let reserves = [reserve(&mut rng), reserve(&mut rng)];
        let longer = reserves[0].max(reserves[1]);
        let most = if anew { [longer; 2] } else { reserves };
        let [board, house] = pair_with(&mut rng, reserves);
        let kind = rng.below(2) as usize;
        let mut device = Device::power_up_of(BOTH_KINDS[kind]);
        run(&mut device, &events_of_sheets(&board, &house).unwrap());
        let mut night = Night::new(seed, false, anew.then_some(1..=longer));
        let length = 400 + 12 * usize::from(longer);
        hold(&mut device, &mut night, length, most, &mut tallies[kind]);
        let kept = device.masters.each_ref().map(|master| master.rt);
        assert!(anew || kept == reserves);
    }
    println!("{tallies:?}");
    for tally in tallies.iter().flatten() {
        assert!(tally.at_the_figure > 0 && tally.a_tick_earlier > 0 && tally.without_a_stop > 0);
    }
}

/// "After its twelve events, over every later run with no reset and no byte stored in RT: from any point
/// on, a controller whose request stands over R + 1 ticks, R being the other's reserve, owns at the end,
/// if there the bus is idle and its own port at rest, and the other sends its STOPs."
#[test]
fn sheets_guarantee() {
    nights(0..4000, false);
}

/// "The same where RT is stored anew with 1 to `most`."
#[test]
fn sheets_guarantee_where_rt_is_stored_anew() {
    nights(4000..7000, true);
}

/// A point of a run: the device, and what is counted up to there.
#[derive(Clone)]
struct Point {
    device: Device,
    watches: [Watch; 2],
}

impl Point {
    /// The counts and interrupts that move no grant with a reserve are left out, and ticks above both
    /// figures are as many as the figures.
    fn key(&mut self, most: u8) -> (Vec<u8>, [[u64; 2]; 2]) {
        let device = &mut self.device;
        (device.idle_count, device.sda_low_count) = (0, 0);
        device.masters.iter_mut().for_each(|own| own.int_status = 0);
        for watch in &mut self.watches {
            watch.ticks = watch.ticks.min(u64::from(most) + 1);
            watch.all = 0;
        }
        let counted = self.watches.each_ref().map(|watch| [watch.ticks, watch.stretch.min(2)]);
        (image_of(&self.device).to_vec(), counted)
    }

    /// The point after an event. Gives also whether a wait goes on there with so many ticks but one.
    fn after(&self, event: [u8; 4], reserves: [u8; 2]) -> (Point, bool) {
        let mut next = self.clone();
        next.device.step(event);
        let mut nearly = false;
        for m in [0, 1] {
            next.watches[m].see(m, &self.device, event, &next.device);
            let at_rest = next.device.masters[m].port == Port::AtRest;
            if next.device.is_idle() && at_rest && next.device.owner() != Some(m) {
                let (ticks, reserve) = (next.watches[m].ticks, u64::from(reserves[1 - m]));
                assert!(ticks <= reserve, "{m} waits after {ticks} ticks: {:?}", next.device);
                nearly |= ticks == reserve;
            }
        }
        (next, nearly)
    }
}

/// Every run of any length out of requests, withdrawals, STOPs, a START and a STOP on the bus, and ticks.
fn every_run(kind: Kind, reserves: [u8; 2]) -> (usize, bool) {
    let mut events = vec![tick(), lines(1, 0, 1), lines(1, 1, 1), pair(0, 1), pair(1, 0)];
    events.extend([pair(0, 0), pair(1, 1), pair(1, 0x81)]);
    for m in [0, 1] {
        events.extend([command(m, 1), write(m, 0), write(m, 1), read(m), stop(m)]);
    }
    let device = started(kind, 0, &starts_of(reserves, [0, 1], [1, 0]));
    let mut start = Point { device, watches: Default::default() };
    let most = reserves[0].max(reserves[1]);
    let mut seen = HashSet::from([start.key(most)]);
    let (mut left, mut nearly) = (vec![start], false);
    while let Some(point) = left.pop() {
        for &event in &events {
            let (mut next, near) = point.after(event, reserves);
            nearly |= near;
            if seen.insert(next.key(most)) {
                left.push(next);
            }
        }
    }
    (seen.len(), nearly)
}

/// The same over every run of those events, for short reserves.
#[test]
fn sheets_guarantee_over_every_run() {
    let mut all = 0;
    for (place, r0) in (1..=3).enumerate() {
        for r1 in 1..=3 {
            let (points, nearly) = every_run(BOTH_KINDS[place % 2], [r0, r1]);
            assert!(nearly && points > 1000);
            all += points;
        }
    }
    println!("{all} points");
}
