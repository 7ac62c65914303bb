//! How an initialisation ends whose grant and BUS_CONNECT last.

mod bench;
use bench::*;
use model::crashes::crashed;
use model::device::{BUS_CONNECT, BUS_INIT};
use model::nights::Night;
use model::part::BOTH_KINDS;
use model::rng::Rng;

/// What is counted of an initialisation from outside: for whom it runs, and the PULSEs of 0 so far.
type Watch = Option<(usize, u32)>;

#[derive(Default, Debug)]
struct Tally {
    connected: u64,
    failed: u64,
    at_eight: u64,
    left: u64,
}

/// "Ends at a PULSE of 1, connected, or at the ninth of 0 with BUS_INIT_FAIL"; at no other event.
fn see(watch: Watch, tally: &mut Tally, event: [u8; 4], answer: [u8; 4], device: &Device) -> Watch {
    let runs = initialising(answer);
    let Some((m, zeros)) = watch else {
        // It starts with nothing counted and BUS_INIT_FAIL clear.
        assert!(!runs || !device.bus_init_fail);
        return runs.then(|| (device.owner().unwrap(), 0));
    };
    let own = &device.masters[m];
    let granted = device.owner() == Some(m);
    if event == pulse(1) {
        assert!(granted && !runs && switch(answer) == Some(m as u8));
        assert!(!own.has(BUS_INIT) && own.has(BUS_CONNECT) && !device.bus_init_fail);
        tally.connected += 1;
        tally.at_eight += u64::from(zeros == 8);
        return None;
    }
    let zeros = zeros + u32::from(event == pulse(0));
    if zeros == 9 {
        assert!(granted && !runs && switch(answer).is_none() && device.bus_init_fail);
        assert!(!own.has(BUS_INIT) && !own.has(BUS_CONNECT));
        tally.failed += 1;
        return None;
    }
    if granted && own.has(BUS_CONNECT) {
        assert!(runs && switch(answer).is_none() && !device.bus_init_fail, "{event:?}: {device:?}");
        return Some((m, zeros));
    }
    // The grant or BUS_CONNECT did not last. Another one may start in the same event.
    tally.left += 1;
    assert!(!runs || device.owner() == Some(1 - m));
    runs.then_some((1 - m, 0))
}

/// Over random runs with resets, time-outs and losses.
#[test]
fn init_ends() {
    let mut tally = Tally::default();
    for seed in 0..6_000 {
        let rng = &mut Rng::new(seed);
        let mut device = crashed(rng);
        run(&mut device, &[reset()]);
        let m = rng.below(2) as u8;
        let mut night = Night::new(seed, true, Some(0..=255));
        let zeros = rng.between(20, 99);
        let mut watch = None;
        for place in 0..150 {
            let mut event = night.next_event(&device);
            if device.initialising().is_some() && rng.percent(60) {
                event = pulse(u8::from(rng.percent(100 - zeros)));
            } else if place < 3 {
                event = [command(m, 1), write(m, 0x0D), stop(m)][place];
            }
            let answer = device.step(event);
            watch = see(watch, &mut tally, event, answer, &device);
        }
    }
    println!("{tally:?}");
    assert!(tally.connected > 1_000 && tally.failed > 300 && tally.at_eight > 50);
    assert!(tally.left > 300);
}

/// All runs of up to nine PULSEs, with a tick, a line change or the owner's own byte before each.
#[test]
fn every_row_of_pulses() {
    let mut tally = Tally::default();
    for (kind, m) in BOTH_KINDS.into_iter().flat_map(|kind| [(kind, 0), (kind, 1)]) {
        for (zeros, between) in
            (0..=9).flat_map(|zeros| (0..4).map(move |between| (zeros, between)))
        {
            let mut device = owned_by_on(kind, m, 0, 0x09);
            run(&mut device, &[command(m, 1)]);
            let answer = run(&mut device, &[write(m, 0x0D)]);
            let mut watch = see(None, &mut tally, write(m, 0x0D), answer, &device);
            let other = [tick(), lines(1, 0, 1), write(m, 0x05), write(1 - m, 0)][between];
            let last = if zeros == 9 { pulse(0) } else { pulse(1) };
            for place in 0..=zeros.min(8) {
                let is_last = place == zeros.min(8);
                for event in [other, if is_last { last } else { pulse(0) }] {
                    assert!(watch.is_some());
                    let answer = device.step(event);
                    watch = see(watch, &mut tally, event, answer, &device);
                }
            }
            assert!(watch.is_none());
            assert_eq!(switch(look(&device)), (zeros < 9).then_some(m));
        }
    }
    println!("{tally:?}");
}
