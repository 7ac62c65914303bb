//! The flat image (document 02, #108), from the request's words and the page docs/IMAGE.md.

mod bench;

use bench::*;
use model::image::{Range, IMAGE_LENGTH, ROWS};
use model::images::put;
use model::part::BOTH_KINDS;
use model::traces::event_list_of;
use model::{image_fresh, image_of, image_read, image_step, read_image};

type Image = [u8; IMAGE_LENGTH];

/// The image with one field set.
fn with(mut image: Image, field: &str, number: i64) -> Image {
    let row = ROWS.iter().find(|row| row.field == field).expect("a field of the table");
    put(&mut image, row, number);
    image
}

/// The number of one field.
fn field(image: &[u8], field: &str) -> i64 {
    ROWS.iter().find(|row| row.field == field).expect("a field of the table").number(image)
}

fn fresh() -> Image {
    image_of(&Device::power_up())
}

/// Steps a buffer that has to stay, and gives the answer.
fn stays(event: [u8; 4], image: &[u8]) -> [u8; 4] {
    let mut buffer = image.to_vec();
    let answer = image_step(event, &mut buffer);
    assert_eq!(buffer, image, "{event:?} moved the image");
    answer
}

/// The cells of the page's table, a row of cells for each field.
fn page() -> Vec<Vec<String>> {
    let path = concat!(env!("CARGO_MANIFEST_DIR"), "/../../docs/IMAGE.md");
    let text = std::fs::read_to_string(path).expect("the page can be read");
    let cells = |line: &str| {
        line.split('|').skip(1).map(|cell| cell.trim().to_string()).collect::<Vec<_>>()
    };
    let of_a_row = |cells: &Vec<String>| cells.len() == 7 && cells[0].parse::<usize>().is_ok();
    text.lines().map(cells).filter(of_a_row).collect()
}

#[test]
fn the_rows_are_those_of_the_page() {
    let rows = page();
    assert_eq!(rows.len(), ROWS.len());
    for (cells, row) in rows.iter().zip(ROWS) {
        let range = match row.range {
            Range::UpTo(most) => format!("0 to {most}"),
            Range::Without(bits) => format!("bit {} clear", bits.trailing_zeros()),
            Range::IdleCount => "0 to 101, or to 151 for kind 1".to_string(),
        };
        let expected = [row.offset.to_string(), row.bytes.to_string(), row.field.to_string()];
        assert_eq!((&cells[..3], &cells[5]), (&expected[..], &range));
    }
}

#[test]
fn no_byte_is_spare() {
    let mut next = 0;
    for row in ROWS {
        assert_eq!(row.offset, next, "{}", row.field);
        next += row.bytes;
    }
    assert_eq!(next, IMAGE_LENGTH);
}

/// "5 INT_MSK, reset 7Fh [...] All others reset to 0"; "power-up is a reset with all outside levels
/// 1"; "drives start released".
#[test]
fn a_fresh_image() {
    for kind in BOTH_KINDS {
        let mut image = [0xAA; IMAGE_LENGTH];
        assert_eq!(image_fresh(kind.number(), &mut image), 0);
        for row in ROWS {
            let expected = match row.offset {
                3 | 10 => 0x7F,
                21..=25 => 1,
                31 => i64::from(kind.number()),
                _ => 0,
            };
            assert_eq!(row.number(&image), expected, "{}", row.field);
        }
    }
    let mut image = [0xAA; IMAGE_LENGTH];
    assert_eq!((image_fresh(2, &mut image), image), (3, [0xAA; IMAGE_LENGTH]));
    assert_eq!(image_fresh(2, &mut image[1..]), 9);
    assert_eq!(image_fresh(0, &mut image[1..]), 9);
    assert_eq!(image, [0xAA; IMAGE_LENGTH]);
}

/// "A step on the image gives the answer of a step on the record, and the new image is that of the
/// new record."
#[test]
fn runs_on_images_are_runs_on_devices() {
    for kind in BOTH_KINDS {
        for seed in 0..20 {
            let mut device = Device::power_up_of(kind);
            let mut image = image_of(&device);
            for event in event_list_of(kind, seed, 1500) {
                assert_eq!(image_step(event, &mut image), device.step(event));
                assert_eq!(image, image_of(&device));
                assert_eq!(read_image(&image).as_ref(), Ok(&device));
                // "Otherwise the switch is closed exactly if both are true."
                assert_eq!(device.switch_of(), device.owner_with_connect());
            }
        }
    }
}

#[test]
fn another_length_is_refused_first() {
    for length in (0..=80).filter(|length| *length != IMAGE_LENGTH) {
        for filling in [0, 0xFF] {
            let buffer = vec![filling; length];
            assert_eq!(stays(tick(), &buffer), [9, 0, 0, 0]);
            assert_eq!(stays([10, 0, 0, 0], &buffer), [9, 0, 0, 0]);
            assert_eq!(image_read(2, 8, &buffer), Err(9));
        }
    }
}

/// "An image with a field outside its range is refused, with 16, and left untouched", whatever the
/// event. Each end of each range is still taken.
#[test]
fn every_field_has_its_range() {
    for row in ROWS {
        let (good, bad) = match row.range {
            Range::UpTo(255) => (vec![0, 255], vec![]),
            Range::UpTo(most) => (vec![0, most], vec![most + 1, (1 << (8 * row.bytes)) - 1]),
            Range::Without(bits) => (vec![0, 0xFD], vec![i64::from(bits), 0xFF]),
            Range::IdleCount => (vec![0, 101], vec![102, 151, 255]),
        };
        for number in good {
            assert!(read_image(&with(fresh(), row.field, number)).is_ok(), "{}", row.field);
        }
        for number in bad {
            let image = with(fresh(), row.field, number);
            for event in [tick(), reset(), stop(0), [10, 0, 0, 0], [6, 1, 0, 0]] {
                assert_eq!(stays(event, &image), [16, 0, 0, 0], "{}", row.field);
            }
            assert_eq!(image_read(0, 0, &image), Err(16));
            assert_eq!(image_read(2, 0, &image), Err(16));
        }
    }
}

/// "The idle count's top by the kind in the image".
#[test]
fn the_idle_count_goes_by_the_kind() {
    let of_kind = |kind, count| with(with(fresh(), "kind of part", kind), "idle count", count);
    let taken = |kind, count| read_image(&of_kind(kind, count)).is_ok();
    assert_eq!([taken(0, 101), taken(0, 102), taken(0, 151)], [true, false, false]);
    assert_eq!([taken(1, 101), taken(1, 151), taken(1, 152)], [true, true, false]);
    assert_eq!(read_image(&of_kind(2, 0)), Err(16));
}

/// "16-bit counts low-first."
#[test]
fn counts_are_low_first() {
    let mut device = Device::power_up();
    run(&mut device, &[lines(0, 0, 1)]);
    ticks(&mut device, 501);
    assert_eq!(image_of(&device)[16..20], [0xF4, 0x01, 0xF5, 0x01]);
}

/// "2, 3 and 4 on a good image show the unchanged device."
#[test]
fn a_refused_event_shows_the_device() {
    let device = owned_by(1, 7, 0x05);
    let image = image_of(&device);
    for (event, number) in [([10, 0, 0, 0], 2), ([6, 1, 0, 0], 3), (stop(1), 4), (pulse(1), 4)] {
        let [outcome, byte, rest @ ..] = stays(event, &image);
        assert_eq!((outcome, byte), (number, 0));
        assert_eq!(rest, look(&device)[2..]);
        assert_eq!(owner([outcome, byte, rest[0], rest[1]]), Some(1));
    }
}

/// "Registers as stored: computed bits are not in the image."
#[test]
fn computed_bits_are_read_and_not_stored() {
    let mut device = owned_by(0, 0, 0x01);
    run(&mut device, &[lines(0, 1, 1)]);
    ticks(&mut device, 500);
    let image = image_of(&device);
    assert_eq!((field(&image, "CONTR of master 0"), image_read(0, 1, &image)), (1, Ok(0x03)));
    assert_eq!((field(&image, "INT_STATUS of master 0"), image_read(0, 4, &image)), (4, Ok(0x44)));
    assert_eq!(image_read(1, 2, &image), Ok(0x80 | 0x08 | 0x04 | 0x01));
    assert_eq!(image_read(1, 0, &image), Ok(0x38));
}

/// The numbers of the turn: who, claiming or owning, and on what ground.
#[test]
fn the_turn_has_its_ground() {
    let turn = |device: &Device| field(&image_of(device), "turn with its ground");
    let mut device = Device::power_up();
    assert_eq!(turn(&device), 0);
    run(&mut device, &[command(0, 1), write(0, 1)]);
    assert_eq!(turn(&device), 1);
    run(&mut device, &[stop(0)]);
    assert_eq!(turn(&device), 7);
    // Both ask at one instant, with these priorities.
    let both = |v0, v1| {
        let mut device = Device::power_up();
        run(&mut device, &[command(0, 1), command(1, 1), pair(v0, v1)]);
        let claims = turn(&device);
        run(&mut device, &[stop(0), stop(1)]);
        (claims, turn(&device))
    };
    assert_eq!(both(0x01, 0x01), (3, 9));
    assert_eq!(both(0x81, 0x01), (2, 8));
    assert_eq!(both(0x01, 0x81), (5, 11));
    assert_eq!(both(0x81, 0x81), (6, 12));
}

/// The numbers of the switch: apart, closed, and an initialisation with its PULSEs of 0.
#[test]
fn the_switch_has_its_pulses() {
    let switch = |device: &Device| field(&image_of(device), "switch with its PULSEs");
    assert_eq!(switch(&Device::power_up()), 0);
    for (m, closed, first) in [(0, 1, 3), (1, 2, 12)] {
        assert_eq!(switch(&owned_by(m, 0, 0x05)), closed);
        let mut device = owned_by(m, 0, 0x0D);
        for zeros in 0..9 {
            assert_eq!(switch(&device), first + zeros);
            run(&mut device, &[pulse(0)]);
        }
        assert_eq!((switch(&device), field(&image_of(&device), "BUS_INIT_FAIL")), (0, 1));
    }
}

/// "A TICK takes one from the reserve count (if above 0)", also after the grant has ended.
#[test]
fn the_reserve_count_runs_on() {
    let mut device = owned_by(0, 10, 0x01);
    ticks(&mut device, 3);
    set(&mut device, 0, 1, 0x00);
    let left = |device: &Device| field(&image_of(device), "reserve count");
    assert_eq!((device.owner(), left(&device)), (None, 7));
    ticks(&mut device, 6);
    assert_eq!(left(&device), 1);
    ticks(&mut device, 2);
    assert_eq!(left(&device), 0);
}

/// "A combination no run reaches is no refusal."
#[test]
fn a_combination_that_no_run_reaches_is_stepped() {
    // Closed for master 1, who claims nothing: shown as it is, and apart after a step.
    let image = with(fresh(), "switch with its PULSEs", 2);
    assert_eq!(stays([10, 0, 0, 0], &image), [2, 0, 0x08, 0x0C]);
    let mut stepped = image;
    assert_eq!(image_step(tick(), &mut stepped), [0, 0, 0, 0x0C]);
    assert_eq!(stepped, with(fresh(), "idle count", 1));
}

/// A register is read "without an event": the mailbox stays full and the pointer where it is.
#[test]
fn a_register_read_changes_nothing() {
    let mut device = Device::power_up();
    set(&mut device, 1, 6, 0x34);
    set(&mut device, 1, 7, 0x12);
    let image = image_of(&device);
    assert_eq!((image_read(0, 6, &image), image_read(0, 7, &image)), (Ok(0x34), Ok(0x12)));
    assert_eq!(image_read(0, 2, &image), Ok(0xC0 | 0x10 | 0x08));
    assert_eq!((image_read(0, 8, &image), image_read(2, 0, &image)), (Err(3), Err(3)));
    assert_eq!(image, image_of(&device));
}
