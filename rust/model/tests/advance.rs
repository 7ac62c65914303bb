//! An advance over quiet time (document 02, #113): its end state, the ticks that it reports, and what
//! it refuses.

mod bench;

use bench::*;
use model::advance::MOST_TICKS;
use model::advances::*;
use model::happenings::Happenings;
use model::image::IMAGE_LENGTH;
use model::images::any_image;
use model::rng::Rng;
use model::{image_advance, image_of, read_image, Advanced};

fn done(changing: u32) -> Advanced {
    Advanced { number: 0, changing }
}

fn refused(number: u8) -> Advanced {
    Advanced { number, changing: 0 }
}

/// What an advance reports of a device that stays as it is.
fn reports(device: &Device, ticks: u32) -> u32 {
    let advanced = device.clone().advance(ticks);
    assert_eq!(advanced.number, 0);
    advanced.changing
}

/// The ticks at which an advance reports one more than before.
fn changing_ticks(device: &Device, most: u32) -> Vec<u32> {
    let more = |ticks: &u32| reports(device, *ticks) > reports(device, *ticks - 1);
    (1..=most).filter(more).collect()
}

/// "Equal in its end state to as many TICK events", and so in two parts.
#[test]
fn an_advance_is_as_many_ticks() {
    for seed in 0..200 {
        let rng = &mut Rng::new(seed);
        let device = reached(rng);
        let (first, second) = (rng.below(600) as u32, rng.below(600) as u32);
        let (mut advanced, mut stepped, mut in_two) = (device.clone(), device.clone(), device);
        let report = advanced.advance(first + second);
        (0..first + second).for_each(|_| assert_eq!(stepped.step(tick())[0], 0));
        assert_eq!(advanced, stepped);
        let parts = in_two.advance(first).changing + in_two.advance(second).changing;
        assert_eq!((in_two, done(parts)), (stepped, report));
    }
}

/// "Zero ticks changes nothing and reports 0."
#[test]
fn no_ticks() {
    for seed in 0..50 {
        let device = reached(&mut Rng::new(seed));
        let mut advanced = device.clone();
        assert_eq!((advanced.advance(0), advanced), (done(0), device));
    }
}

/// "Past 65,535: refusal 3, device unchanged, 0 reported"; "65,535 is in".
#[test]
fn too_many_ticks() {
    let device = owned_by(0, 5, 0x01);
    for ticks in [65_536, 65_537, 1 << 24, u32::MAX] {
        let mut advanced = device.clone();
        assert_eq!((advanced.advance(ticks), &advanced), (refused(3), &device));
    }
    let mut advanced = device;
    assert_eq!((MOST_TICKS, advanced.advance(65_535)), (65_535, done(1)));
    assert_eq!((advanced.owner(), advanced.idle_count, advanced.reserve_count), (None, 101, 0));
}

/// Counts alone are no change, up to where they stop.
#[test]
fn counts_are_no_change() {
    assert_eq!(reports(&Device::power_up(), 300), 0);
    assert_eq!(reports(&owned_by(0, 0, 0x01), 1000), 0);
    // The reserve runs out on a busy bus, and the owner stays.
    let mut device = owned_by(0, 5, 0x01);
    run(&mut device, &[lines(1, 0, 1)]);
    assert_eq!(reports(&device, 300), 0);
}

/// A loss, by the reserve or by the idle timer.
#[test]
fn a_loss_is_a_change() {
    assert_eq!(changing_ticks(&owned_by(1, 255, 0x01), 600), [255]);
    assert_eq!(changing_ticks(&owned_by(1, 0, 0x21), 600), [101]);
    let second = owned_by_on(Kind::Tpt29641, 1, 0, 0x21);
    assert_eq!(changing_ticks(&second, 600), [151]);
}

/// "A change of the levels": SCL rises as the hold ends, though nothing else does.
#[test]
fn the_end_of_a_hold_is_a_change() {
    let mut device = Device::power_up();
    run(&mut device, &[command(0, 1), write(0, 0x10), general_call(0, 6)]);
    assert_eq!(changing_ticks(&device, 600), [35]);
    // With SCL low outside, it stays low, and nothing but counts changes up to 500.
    run(&mut device, &[lines(0, 1, 1)]);
    assert_eq!(changing_ticks(&device, 600), [500]);
}

/// "A change [...] of BUS_HUNG (one flag)": the second count that ends changes nothing.
#[test]
fn a_hung_bus_is_one_change() {
    let mut device = Device::power_up();
    run(&mut device, &[lines(1, 0, 1)]);
    assert_eq!(changing_ticks(&device, 600), [501]);
    run(&mut device, &[lines(0, 0, 1)]);
    assert_eq!(changing_ticks(&device, 600), [500]);
}

/// The cut at 35 ticks, then a hung bus.
#[test]
fn a_cut_is_a_change() {
    let mut device = owned_by(0, 0, 0x45);
    run(&mut device, &[lines(0, 1, 1)]);
    assert_eq!(changing_ticks(&device, 600), [35, 500]);
}

/// "Ticks are counted, not changes": the end of the hold, the rise and the grant are one; the loss
/// and the partner's grant are one.
#[test]
fn ticks_are_counted_not_changes() {
    let mut device = Device::power_up();
    run(&mut device, &[command(0, 1), write(0, 0x10), general_call(0, 6)]);
    set(&mut device, 0, 3, 20);
    set(&mut device, 0, 1, 0x05);
    set(&mut device, 1, 3, 30);
    set(&mut device, 1, 1, 0x05);
    assert_eq!(changing_ticks(&device, 600), [35, 55, 85]);
    let mut advanced = device;
    assert_eq!(advanced.advance(55), done(2));
    assert_eq!(advanced.closed_for(), Some(1));
}

/// "This is never above six from any state reached from power-up." Three is the most that these come
/// to, and the promise has room.
#[test]
fn never_above_six() {
    let mut most = 0;
    for seed in 0..4000 {
        let changing = reports(&reached(&mut Rng::new(seed)), 900);
        assert!(changing <= 6, "seed {seed}: {changing}");
        most = changing.max(most);
    }
    assert_eq!(most, 3);
}

/// On an image: 9, then 16, then 3, and all of them leave it.
#[test]
fn an_image_is_advanced() {
    for seed in 0..300 {
        let rng = &mut Rng::new(seed);
        let image = any_image(rng);
        let ticks = rng.pick(&ENDS);
        let mut device = read_image(&image).unwrap();
        let mut advanced = image;
        assert_eq!(image_advance(ticks, &mut advanced), device.advance(ticks));
        assert_eq!(advanced, image_of(&device));
        advanced = image;
        assert_eq!((image_advance(65_536, &mut advanced), advanced), (refused(3), image));
        let mut outside = image;
        outside[15] = 36;
        for ticks in [0, 5, 65_536] {
            let mut advanced = outside;
            assert_eq!((image_advance(ticks, &mut advanced), advanced), (refused(16), outside));
            let mut short = outside;
            assert_eq!(image_advance(ticks, &mut short[..IMAGE_LENGTH - 1]), refused(9));
            assert_eq!(short, outside);
        }
    }
}

/// The random devices come to everything.
#[test]
fn random_advances_reach_everything() {
    let mut sights = Happenings::default();
    for seed in 0..3000 {
        let rng = &mut Rng::new(seed);
        let device = reached(rng);
        let ticks = any_ticks(rng);
        sights.see_advance(ticks, &image_of(&device));
        sights.see_changing(device.clone().advance(ticks.min(900)).changing);
        sights.see_advance(any_ticks(rng), &any_image(rng));
        sights.see_advance(any_ticks(rng), &[0xFF; IMAGE_LENGTH]);
        sights.see_advance(any_ticks(rng), &[]);
    }
    let missing: Vec<_> = ADVANCE_SIGHTS.iter().filter(|name| sights.count(name) == 0).collect();
    assert!(missing.is_empty(), "never: {missing:?}");
    let unnamed: Vec<_> = sights.counted().filter(|name| !ADVANCE_SIGHTS.contains(name)).collect();
    assert!(unnamed.is_empty(), "without a name: {unnamed:?}");
}
