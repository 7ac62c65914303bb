//! The plain decoder is held to the independent model, so that its time is that of right events.

use model::capture::MOST_SAMPLES;
use model::capture_damage::{about_bytes, any_samples, damaged, densest};
use model::captures::{any_manner, capture};
use model::rng::Rng;
use speed::captures::kinds;
use speed::decoder;

fn assert_same(samples: &[u8], address: u8, room: usize) {
    let (mut expected, mut events) = (vec![0xEE; room], vec![0xEE; room]);
    let imported = model::import_capture(samples, address, &mut expected);
    let said = if imported.number == 0 { Ok(imported.events) } else { Err(imported.number) };
    assert_eq!(decoder::import_capture(samples, address, &mut events), said);
    assert!(events == expected, "{} samples", samples.len());
}

#[test]
fn random_captures() {
    for seed in 0..400 {
        let mut rng = Rng::new(seed);
        let manner = any_manner(&mut rng);
        let length = rng.pick(&[60, 400, 3000]);
        let made = capture(&mut rng, manner, length);
        let all = made.meant[0].len() + made.meant[1].len();
        for room in [4 * all + 5, 2 * all, 0] {
            assert_same(&made.samples, made.address, room);
        }
        assert_same(&damaged(&mut rng, &made.samples), made.address, 4 * all + 40);
        let length = rng.between(0, 300) as usize;
        assert_same(&any_samples(&mut rng, length), made.address, 400);
    }
}

#[test]
fn bounds() {
    about_bytes(0x70).iter().for_each(|samples| assert_same(samples, 0x70, 80));
    for address in 0..=255 {
        assert_same(&[0x0F], address, 4);
    }
    for length in [MOST_SAMPLES, MOST_SAMPLES + 1] {
        assert_same(&vec![0x0F; length], 0x70, 4);
        assert_same(&densest(&mut Rng::new(1), 0x70, length), 0x70, 4 * 3640);
    }
}

/// The timed captures are accepted and give events.
#[test]
fn timed_captures() {
    for captures in kinds() {
        for (samples, address) in &captures.all {
            assert_same(samples, *address, 4 * 3640);
            let count = decoder::import_capture(samples, *address, &mut [0; 4 * 3640]);
            assert!(count.is_ok_and(|count| count > 100), "{}: {count:?}", captures.name);
        }
    }
}
