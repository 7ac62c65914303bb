//! The word of a sender that crashes waits in its reader's box.

mod bench;
use bench::*;
use model::crashes::crashed;
use model::device::Master;
use model::nights::Night;
use model::part::BOTH_KINDS;
use model::rng::Rng;

/// A word that waits in p's box: it stays until p reads register 7 or a reset comes, whatever else comes.
/// "Read the mail before the recipe": the recipe empties both boxes.
#[test]
fn word_waits() {
    let (mut stayed, mut read_out, mut reset_away) = (0, 0, 0);
    for seed in 0..6_000 {
        let rng = &mut Rng::new(seed);
        let mut device = crashed(rng);
        let mut night = Night::new(seed, true, Some(0..=255));
        for _ in 0..80 {
            let mut event = night.next_event(&device);
            if rng.percent(10) {
                let m = rng.below(2) as u8;
                event = rng.pick(&[command(m, 7), read(m), write(m, seed as u8)]);
            }
            let before = device.clone();
            let answer = device.step(event);
            for (p, (was, is)) in before.masters.iter().zip(&device.masters).enumerate() {
                if !was.mail_full {
                    continue;
                }
                let word = |own: &Master| (own.mail_low, own.mail_high);
                if event == reset() || matches!(event, [9, _, 6, 0]) {
                    assert!(!is.mail_full && word(is) == (0, 0));
                    reset_away += 1;
                } else if event == read(p as u8) && was.pointer == 7 {
                    assert!(!is.mail_full && word(is) == word(was) && answer[1] == was.mail_high);
                    read_out += 1;
                } else {
                    assert!(is.mail_full && word(is) == word(was), "{event:?}: {device:?}");
                    stayed += 1;
                }
            }
        }
    }
    println!("stayed {stayed}, read {read_out}, reset {reset_away}");
    assert!(stayed > 10_000 && read_out > 300 && reset_away > 300);
}

/// The takeover word of a sender that then crashes is there for its reader after any time, and gone after
/// the recipe.
#[test]
fn a_takeover_word_before_and_after_the_recipe() {
    for (kind, p) in BOTH_KINDS.into_iter().flat_map(|kind| [(kind, 0), (kind, 1)]) {
        let mut device = owned_by_on(kind, 1 - p, 0, 0x01);
        set(&mut device, 1 - p, 6, 0x12);
        set(&mut device, 1 - p, 7, 0x34);
        ticks(&mut device, 5_000);
        let mut late = device.clone();
        assert_eq!((get(&mut device, p, 6), get(&mut device, p, 7)), (0x12, 0x34));
        run(&mut late, &[general_call(p, 6)]);
        assert_eq!((get(&mut late, p, 6), get(&mut late, p, 7)), (0, 0));
        assert_eq!(get(&mut late, p, 2) & 0x10, 0);
    }
}
