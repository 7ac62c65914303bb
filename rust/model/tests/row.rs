//! The row of a shelf as bytes (document 02, #110 on #108): records of 39 bytes, refusals 9 and 16,
//! and fresh rows.

mod bench;

use bench::*;
use model::happenings::Happenings;
use model::image::IMAGE_LENGTH;
use model::rng::Rng;
use model::row::RECORD_LENGTH;
use model::shelf_sights::shelf_sights;
use model::shelves::*;
use model::*;

/// Steps a row that has to stay. Gives the answer.
fn stays(name: u8, event: [u8; 4], row: &[u8]) -> [u8; 4] {
    let mut buffer = row.to_vec();
    let answer = shelf_step(name, event, &mut buffer);
    assert_eq!(buffer, row, "{event:?} moved the row");
    answer
}

/// A fresh row for these slots.
fn fresh(slots: &[u8]) -> Vec<u8> {
    let mut row = vec![0xAA; RECORD_LENGTH * slots.len() / 2];
    assert_eq!(shelf_fresh(slots, &mut row), 0);
    row
}

/// A record has its address first, then the 38 bytes of #108.
#[test]
fn a_record_is_an_address_and_an_image() {
    let row = fresh(&[0x70, 0, 0x71, 1]);
    assert_eq!((RECORD_LENGTH, row.len()), (39, 78));
    assert_eq!((row[0], row[39]), (0x70, 0x71));
    assert_eq!(row[1..39], image_of(&Device::power_up()));
    assert_eq!(row[40..], image_of(&Device::power_up_of(Kind::Tpt29641)));
}

/// A step on the bytes is the step on the records.
#[test]
fn runs_on_rows_are_runs_on_shelves() {
    for seed in 0..20 {
        let mut rng = Rng::new(seed);
        let count = rng.between(1, 16) as usize;
        let mut shelf = fresh_shelf(&mut rng, count);
        let mut row = row_of(&shelf);
        for (name, event) in named_events(&mut rng, &shelf, 700) {
            assert_eq!(shelf_step(name, event, &mut row), shelf.step(name, event));
            assert_eq!(row, row_of(&shelf));
            assert_eq!(read_row(&row).as_ref(), Ok(&shelf));
            let place = rng.below(18) as u8;
            assert_eq!(shelf_show(place, &row), shelf.show(place));
        }
    }
}

/// 9 where the bytes are no whole records. An empty buffer is an empty row, so it is 5.
#[test]
fn no_whole_records() {
    for length in 0..=18 * RECORD_LENGTH {
        for filling in [0, 0xFF] {
            let row = vec![filling; length];
            let number = match (length % RECORD_LENGTH, length / RECORD_LENGTH) {
                (0, 0) => 5,
                (0, 1) if filling == 0 => continue,
                (0, _) if filling == 0xFF => 16,
                (0, 17..) => 6,
                (0, _) => 17,
                _ => 9,
            };
            for event in [tick(), stop(1), lines(2, 0, 0), [10; 4]] {
                assert_eq!(stays(0x33, event, &row), [number, 0, 0, 0], "{length} bytes");
            }
            assert_eq!(shelf_show(99, &row), [number, 0, 0, 0]);
        }
    }
}

/// 16 for any record's image, whomever the event is for, and before the shelf's own.
#[test]
fn any_image_out_of_range() {
    for count in 1..=18u8 {
        let shelf = fresh_shelf(&mut Rng::new(16), usize::from(count));
        for record in 0..usize::from(count) {
            let mut row = row_of(&shelf);
            row[record * RECORD_LENGTH + 1 + 15] = 36;
            for (name, event) in [(0, tick()), (0, lines(1, 1, 1)), (99, stop(0)), (0, [10; 4])] {
                assert_eq!(stays(name, event, &row), [16, 0, 0, 0]);
            }
            assert_eq!(shelf_show(0, &row), [16, 0, 0, 0]);
            row[(record + 1) % usize::from(count) * RECORD_LENGTH] = row[record * RECORD_LENGTH];
            assert_eq!(stays(0, tick(), &row), [16, 0, 0, 0]);
            row.pop();
            assert_eq!(stays(0, tick(), &row), [9, 0, 0, 0]);
        }
    }
}

/// The shelf's own refusals on bytes leave them, and so do 2, 3 and 4.
#[test]
fn refusals_leave_the_row() {
    let row = fresh(&[0x70, 0, 0x71, 1, 0x72, 0]);
    assert_eq!(stays(0x73, command(0, 1), &row), [18, 0, 0, 0]);
    assert_eq!(stays(3, lines(0, 0, 0), &row), [18, 0, 0, 0]);
    assert_eq!(stays(0x71, stop(0), &row), [4, 0, 0, 0x0C]);
    assert_eq!(stays(0x71, stop(2), &row), [3, 0, 0, 0x0C]);
    assert_eq!(stays(0x71, [11, 0, 0, 0], &row), [2, 0, 0, 0x0C]);
    let mut equal = row;
    equal[78] = 0x70;
    assert_eq!(stays(0x71, command(0, 1), &equal), [17, 0, 0, 0]);
}

/// A fresh row: 9 for slots not in pairs or a row that has not 39 bytes a slot, 5 for no slot, 6 above
/// 16, 17 for two equal addresses, 3 for another kind; and then nothing is written.
#[test]
fn fresh_rows_refused_in_order() {
    let number = |slots: &[u8], length: usize| {
        let mut row = vec![0xAA; length];
        let number = shelf_fresh(slots, &mut row);
        assert!(number == 0 || row == vec![0xAA; length], "{slots:?} wrote");
        number
    };
    assert_eq!(number(&[], 0), 5);
    assert_eq!(number(&[], 39), 9);
    assert_eq!(number(&[0x70], 0), 9);
    assert_eq!(number(&[0x70], 39), 9);
    assert_eq!(number(&[0x70, 0, 0x71], 39), 9);
    for length in 0..200 {
        let expected = [if length == 78 { 0 } else { 9 }, if length == 78 { 17 } else { 9 }];
        assert_eq!(number(&[0x70, 0, 0x71, 1], length), expected[0]);
        assert_eq!(number(&[0x70, 0, 0x70, 2], length), expected[1]);
    }
    assert_eq!(number(&[0x70, 0, 0x71, 2], 78), 3);
    assert_eq!(number(&[0x70, 255, 0x71, 0], 78), 3);
    let slots = |count: u8| -> Vec<u8> { (0..count).flat_map(|at| [0x10 + at, at % 2]).collect() };
    assert_eq!(number(&slots(16), 16 * 39), 0);
    assert_eq!(number(&slots(17), 17 * 39), 6);
    assert_eq!(number(&[slots(16), vec![0x10, 2]].concat(), 17 * 39), 6);
    assert_eq!(number(&slots(17), 16 * 39), 9);
}

/// What stood in the row is not looked at.
#[test]
fn a_fresh_row_over_anything() {
    let expected = fresh(&[5, 1, 4, 0]);
    for filling in [0, 0x80, 0xFF] {
        let mut row = vec![filling; 2 * RECORD_LENGTH];
        assert_eq!((shelf_fresh(&[5, 1, 4, 0], &mut row), row), (0, expected.clone()));
    }
    assert_eq!(expected[1..][..IMAGE_LENGTH], image_of(&Device::power_up_of(Kind::Tpt29641)));
}

/// The random shelves come to everything.
#[test]
fn random_shelves_reach_everything() {
    let mut sights = Happenings::default();
    for seed in 0..400 {
        let rng = &mut Rng::new(seed);
        let count = rng.between(1, 16) as usize;
        let shelf = fresh_shelf(rng, count);
        let mut row = row_of(&shelf);
        for (name, event) in named_events(rng, &shelf, 300) {
            sights.see_shelf_step(name, event, &row);
            sights.see_shelf_show(rng.below(17) as u8, &row);
            shelf_step(name, event, &mut row);
        }
        for _ in 0..40 {
            let count = any_count(rng);
            let shelf = any_shelf(rng, count);
            let (name, event) = any_named(rng, &shelf);
            sights.see_shelf_step(name, event, &row_of(&shelf));
            let row = damaged_row(rng, &shelf);
            sights.see_shelf_step(name, event, &row);
            let (slots, wrong) = (any_slots(rng, count), damaged_slots(rng, count));
            sights.see_shelf_fresh(&slots, &row);
            sights.see_shelf_fresh(&wrong, &row);
            let other = rng.between(0, 18) as usize * RECORD_LENGTH;
            sights.see_shelf_fresh(&slots, &vec![0; other]);
        }
    }
    let all = shelf_sights();
    let missing: Vec<_> = all.iter().filter(|name| sights.count(name) == 0).collect();
    assert!(missing.is_empty(), "never: {missing:?}");
    let unnamed: Vec<_> = sights.counted().filter(|name| !all.iter().any(|n| n == name)).collect();
    assert!(unnamed.is_empty(), "without a name: {unnamed:?}");
}
