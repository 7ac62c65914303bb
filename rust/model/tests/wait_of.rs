//! How long a controller can wait by a pair of order sheets: the three grades, and the refusals in
//! their order.

use model::happenings::Happenings;
use model::rng::Rng;
use model::sheet::*;
use model::sheets::*;
use model::wait_of::*;
use model::wait_sights::WAIT_SIGHTS;

/// A sheet out of its six boxes.
fn sheet(boxes: [[u8; 2]; 6]) -> Vec<u8> {
    boxes.chunks(2).flat_map(|two| [&[2], &two[0][..], &two[1]].concat()).collect()
}

const OPEN: [u8; 2] = [0, 0];

/// A full sheet with these reserves and idle boxes.
fn full(reserves: [u8; 2], idles: [u8; 2]) -> Vec<u8> {
    let [r0, r1] = reserves.map(|value| [1, value]);
    let [i0, i1] = idles.map(|value| [1, value]);
    sheet([r0, r1, [1, 0], [1, 1], i0, i1])
}

fn open() -> Vec<u8> {
    sheet([OPEN; 6])
}

fn assert_refused(board: &[u8], house: &[u8], controller: u8, kind: u8, number: u8) {
    let refused = Wait { number, grade: 0, ticks: 0 };
    assert_eq!(wait_of(board, house, controller, kind), refused);
}

/// Every reserve with every idle box of the other, for both controllers and kinds. One's own boxes say
/// nothing about one's own wait.
#[test]
fn every_grade() {
    for reserve in 0..=255 {
        for idle in [0, 1] {
            for (own, timer) in [(0, 0), (0, 1), (7, 0), (255, 1)] {
                let of_0 = full([own, reserve], [timer, idle]);
                let of_1 = full([reserve, own], [idle, timer]);
                for (kind, limit) in [(0, 101), (1, 151)] {
                    let (grade, ticks) = match (reserve, idle) {
                        (0, 0) => (3, 0),
                        (0, _) => (2, limit),
                        _ => (1, u32::from(reserve) + 1),
                    };
                    let expected = Wait { number: 0, grade, ticks };
                    assert_eq!(wait_of(&of_0, &open(), 0, kind), expected);
                    assert_eq!(wait_of(&open(), &of_1, 1, kind), expected);
                }
            }
        }
    }
}

/// The incident's own setting, and the packed numbers.
#[test]
fn packed() {
    let sheets = full([0, 50], [0, 1]);
    assert_eq!(wait_of(&sheets, &open(), 1, 0).packed(), 3 * 256);
    assert_eq!(wait_of(&sheets, &open(), 0, 0).packed(), 256 + 51 * 65536);
    let silent = full([0, 0], [1, 1]);
    assert_eq!(wait_of(&silent, &open(), 0, 1).packed(), 2 * 256 + 151 * 65536);
    assert_eq!(wait_of(&silent, &[], 0, 1).packed(), 5);
}

/// A box comes from the board sheet if ticked there: a ticked 0 beats the house sheet's reserve.
#[test]
fn board_before_house() {
    let house = full([9, 9], [1, 1]);
    let board = sheet([[1, 0], OPEN, OPEN, OPEN, OPEN, [1, 0]]);
    assert_eq!(wait_of(&board, &house, 1, 0), Wait { number: 0, grade: 2, ticks: 101 });
    assert_eq!(wait_of(&board, &house, 0, 0), Wait { number: 0, grade: 1, ticks: 10 });
    assert_eq!(wait_of(&house, &board, 1, 0), Wait { number: 0, grade: 1, ticks: 10 });
}

/// 5, 10, 3, 7 of the board sheet, then of the house sheet, then 15, 3 for the kind, 14; each with all
/// later ones due as well.
#[test]
fn order_of_the_refusals() {
    let mut bytes = [open(), vec![2]].concat();
    assert_refused(&bytes, &[], 9, 9, 7);
    assert_refused(&open(), &bytes, 9, 9, 7);
    bytes[1] = 2;
    assert_refused(&bytes, &[], 9, 9, 3);
    assert_refused(&open(), &bytes, 9, 9, 3);
    bytes[10] = 1;
    assert_refused(&bytes, &[], 9, 9, 10);
    assert_refused(&open(), &bytes, 9, 9, 10);
    assert_refused(&bytes[..14], &[], 9, 9, 5);
    assert_refused(&open(), &bytes[..14], 9, 9, 5);
    assert_refused(&open(), &open(), 2, 2, 15);
    assert_refused(&open(), &open(), 1, 2, 3);
    assert_refused(&open(), &open(), 1, 1, 14);
}

/// Every controller with every kind, beside a complete pair and one that is not.
#[test]
fn every_controller_and_kind() {
    let sheets = full([3, 4], [0, 0]);
    for controller in 0..=255 {
        for kind in 0..=255 {
            let number = match (controller, kind) {
                (2.., _) => 15,
                (_, 2..) => 3,
                _ => 0,
            };
            let said = wait_of(&sheets, &open(), controller, kind);
            if number == 0 {
                assert_eq!(said.ticks, 5 - u32::from(controller));
            } else {
                assert_refused(&sheets, &open(), controller, kind, number);
            }
            let number = if number == 0 { 14 } else { number };
            assert_refused(&open(), &open(), controller, kind, number);
        }
    }
}

/// One box short, whichever it is, also one that the answer does not rest on.
#[test]
fn every_empty_box() {
    let sheets = full([3, 4], [0, 1]);
    for at in [1, 3, 6, 8, 11, 13] {
        let mut bytes = sheets.clone();
        bytes[at..at + 2].copy_from_slice(&OPEN);
        for controller in [0, 1] {
            assert_refused(&bytes, &open(), controller, 0, 14);
            assert_refused(&open(), &bytes, controller, 1, 14);
            assert_refused(&bytes, &bytes, controller, 0, 14);
            assert_eq!(wait_of(&bytes, &sheets, controller, 0).number, 0);
        }
    }
}

/// It refuses as the events do, for the controllers and kinds that there are.
#[test]
fn refuses_as_the_events() {
    for seed in 0..3000 {
        let mut rng = Rng::new(seed);
        let mut pair = good_pair(&mut rng, 90);
        for sheet in &mut pair {
            while rng.percent(30) {
                damage_sheet(&mut rng, sheet);
            }
        }
        let [board, house] = pair;
        let number = events_of_sheets(&board, &house).map_or_else(|number| number, |_| 0);
        for (controller, kind) in [(0, 0), (0, 1), (1, 0), (1, 1)] {
            assert_eq!(wait_of(&board, &house, controller, kind).number, number);
        }
    }
}

/// The random sheets come to everything.
#[test]
fn random_waits_reach_everything() {
    let mut sights = Happenings::default();
    for seed in 0..3000 {
        let mut rng = Rng::new(seed);
        let mut damaged = good_pair(&mut rng, 80);
        damage_sheet(&mut rng, &mut damaged[seed as usize % 2]);
        let pairs = [damaged, complete_pair(&mut rng), pair_without_a_box(&mut rng)];
        for [board, house] in &pairs {
            sights.see_wait(board, house, rng.below(3) as u8, rng.below(3) as u8);
        }
    }
    let missing: Vec<_> = WAIT_SIGHTS.iter().filter(|name| sights.count(name) == 0).collect();
    assert!(missing.is_empty(), "never: {missing:?}");
    let unnamed: Vec<_> = sights.counted().filter(|name| !WAIT_SIGHTS.contains(name)).collect();
    assert!(unnamed.is_empty(), "without a name: {unnamed:?}");
}
