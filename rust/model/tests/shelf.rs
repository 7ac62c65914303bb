//! A shelf with several arbiters (document 02, #110): whom an event reaches, what it answers, and the
//! shelf's own refusals.

mod bench;

use bench::*;
use model::rng::Rng;
use model::shelf::{naming_of, Naming};
use model::shelves::{any_named, any_shelf, fresh_shelf, named_events};
use model::{Record, Shelf};

/// A row of fresh PCA9641 with these addresses.
fn shelf(addresses: &[u8]) -> Shelf {
    let record = |&address| Record { address, device: Device::power_up() };
    Shelf { row: addresses.iter().map(record).collect() }
}

/// Steps all events, each of which must be done. Gives the last answer.
fn done(shelf: &mut Shelf, events: &[(u8, [u8; 4])]) -> [u8; 4] {
    let mut answer = [0; 4];
    for (name, event) in events {
        answer = shelf.step(*name, *event);
        assert_eq!(answer[0], 0, "{event:?} for {name} answered {answer:02X?}");
    }
    answer
}

/// COMMAND, WRITE and STOP of one register of the device at an address.
fn set_at(shelf: &mut Shelf, address: u8, m: u8, register: u8, value: u8) -> [u8; 4] {
    let events = [command(m, register), write(m, value), stop(m)];
    done(shelf, &events.map(|event| (address, event)))
}

/// Steps a shelf that has to stay as it is. Gives the answer.
fn stays(shelf: &Shelf, name: u8, event: [u8; 4]) -> [u8; 4] {
    let mut other = shelf.clone();
    let answer = other.step(name, event);
    assert_eq!(&other, shelf, "{event:?} moved a record");
    answer
}

/// One good event of each kind, and one of unknown kind.
fn one_of_each() -> [[u8; 4]; 11] {
    let ports = [command(0, 1), write(0, 1), read(1), stop(0)];
    let [a, b, c, d] = ports;
    let lines = lines(1, 0, 1);
    [a, b, c, d, pair(1, 1), lines, tick(), pulse(1), reset(), general_call(0, 6), [10, 0, 0, 0]]
}

/// "Port events name an address; PAIR names one address for both masters; LINES and PULSE name a
/// place in the row; TICK, RESET and GENERAL CALL reach all."
#[test]
fn what_each_kind_names() {
    use Naming::{Address, All, Nothing, Place};
    let expected = [Address, Address, Address, Address, Address, Place, All, Place, All, All];
    for (kind, naming) in (0..).zip(expected) {
        assert_eq!(naming_of(kind), naming, "kind {kind}");
    }
    assert!((10..=255).all(|kind| naming_of(kind) == Nothing));
}

/// Address 1 is at place 0, and address 0 at place 1.
#[test]
fn an_address_is_no_place() {
    let mut shelf = shelf(&[1, 0]);
    set_at(&mut shelf, 1, 0, 3, 0x11);
    set_at(&mut shelf, 0, 0, 3, 0x22);
    assert_eq!(
        (shelf.row[0].device.masters[0].rt, shelf.row[1].device.masters[0].rt),
        (0x11, 0x22)
    );
    done(&mut shelf, &[(1, lines(0, 1, 1))]);
    assert_eq!((shelf.show(0)[3], shelf.show(1)[3]), (0x0C, 0x08));
}

/// "An event for one device leaves every other record the same, and its answer, refusals 5, 6, 17 and
/// 18 apart, does not depend on them": it is that of the device alone.
#[test]
fn an_event_for_one_leaves_the_others() {
    let mut rng = Rng::new(110);
    for _ in 0..4000 {
        let count = rng.between(1, 16) as usize;
        let before = any_shelf(&mut rng, count);
        let (name, event) = any_named(&mut rng, &before);
        let named = matches!(naming_of(event[0]), Naming::Address | Naming::Place);
        let Some(place) = before.place_named(name, event[0]).filter(|_| named) else {
            continue;
        };
        let mut after = before.clone();
        let answer = after.step(name, event);
        let mut alone = before.row[place].device.clone();
        assert_eq!(answer, alone.step(event));
        let mut expected = before;
        expected.row[place].device = alone;
        assert_eq!(after, expected);
    }
}

/// "Demands 2 and 3 hold per device, over the events that reach it": each device is where these
/// events alone would take it. "An event that reaches all [...] answers for place 0."
#[test]
fn each_device_goes_its_own_way() {
    for seed in 0..40 {
        let mut rng = Rng::new(seed);
        let count = rng.between(1, 16) as usize;
        let mut shelf = fresh_shelf(&mut rng, count);
        let mut alone: Vec<Device> = shelf.row.iter().map(|record| record.device.clone()).collect();
        for (name, event) in named_events(&mut rng, &shelf, 1000) {
            let answer = shelf.step(name, event);
            let place = shelf.place_named(name, event[0]);
            let reached: Vec<usize> = match naming_of(event[0]) {
                Naming::All => (0..count).collect(),
                _ => place.into_iter().collect(),
            };
            let answers: Vec<_> = reached.iter().map(|at| alone[*at].step(event)).collect();
            assert_eq!(answer, answers.first().copied().unwrap_or([18, 0, 0, 0]));
            for (at, device) in alone.iter().enumerate() {
                assert_eq!(&shelf.row[at].device, device);
                assert_eq!(shelf.show(at as u8), device.answer(0, 0));
            }
        }
    }
}

/// "An event that reaches all, or of unknown kind, answers for place 0, each device then being
/// readable by its place."
#[test]
fn place_0_answers_for_all() {
    let mut shelf = shelf(&[0x70, 0x71, 0x08]);
    assert_eq!(set_at(&mut shelf, 0x71, 1, 1, 0x05)[2], 0x2A);
    assert_eq!(shelf.step(0x71, tick()), [0, 0, 0x00, 0x0C]);
    assert_eq!(stays(&shelf, 0x71, [10, 0, 0, 0]), [2, 0, 0x00, 0x0C]);
    assert_eq!(shelf.show(0), [0, 0, 0x00, 0x0C]);
    assert_eq!(shelf.show(1), [0, 0, 0x2A, 0x0C]);
    assert_eq!(shelf.show(2), [0, 0, 0x00, 0x0C]);
    assert_eq!(shelf.show(3), [18, 0, 0, 0]);
    assert_eq!(shelf.show(0x70), [18, 0, 0, 0]);
    done(&mut shelf, &[(0, reset())]);
    assert_eq!(shelf.show(1), [0, 0, 0x00, 0x0C]);
}

/// "The name [...] not looked at where the event names nothing."
#[test]
fn a_name_that_is_not_asked_for() {
    let shelf = shelf(&[0x70, 0x71]);
    for name in 0..=255 {
        for event in [tick(), reset(), general_call(0, 6), general_call(1, 7)] {
            let mut one = shelf.clone();
            let mut other = shelf.clone();
            assert_eq!(one.step(name, event), other.step(0x70, event));
            assert_eq!(one, other);
        }
        assert_eq!(stays(&shelf, name, [10, 0, 0, 0]), [2, 0, 0, 0x0C]);
        assert_eq!(stays(&shelf, name, [6, 1, 0, 0]), [3, 0, 0, 0x0C]);
        assert_eq!(stays(&shelf, name, general_call(2, 6)), [3, 0, 0, 0x0C]);
    }
}

/// "A soft reset's hold goes by each device's own SMBUS_SWRST", of the sender.
#[test]
fn each_device_holds_by_its_own_bit() {
    let mut shelf = shelf(&[0x70, 0x71, 0x72]);
    set_at(&mut shelf, 0x71, 0, 1, 0x10);
    set_at(&mut shelf, 0x72, 1, 1, 0x10);
    assert_eq!(done(&mut shelf, &[(0, general_call(0, 6))]), [0, 0, 0, 0x0C]);
    let scl = |shelf: &Shelf| [0, 1, 2].map(|place| shelf.show(place)[3]);
    assert_eq!(scl(&shelf), [0x0C, 0x08, 0x0C]);
    done(&mut shelf, &[(0, tick()); 34]);
    assert_eq!(scl(&shelf), [0x0C, 0x08, 0x0C]);
    done(&mut shelf, &[(0, tick())]);
    assert_eq!(scl(&shelf), [0x0C; 3]);
}

/// "STOP reaches the named device alone."
#[test]
fn a_stop_is_for_one() {
    let mut shelf = shelf(&[0x70, 0x71]);
    done(&mut shelf, &[(0x70, command(0, 1)), (0x71, command(0, 1)), (0x70, stop(0))]);
    assert_eq!(stays(&shelf, 0x70, stop(0))[0], 4);
    done(&mut shelf, &[(0x71, write(0, 1)), (0x71, stop(0))]);
}

/// The masters' halves of a PAIR are for one device. With their ports open at two, neither has both.
#[test]
fn a_pair_is_for_one() {
    let mut shelf = shelf(&[0x70, 0x71]);
    done(&mut shelf, &[(0x70, command(0, 1)), (0x71, command(1, 1))]);
    assert_eq!(stays(&shelf, 0x70, pair(1, 1))[0], 4);
    assert_eq!(stays(&shelf, 0x71, pair(1, 1))[0], 4);
    done(&mut shelf, &[(0x71, command(0, 1)), (0x71, pair(1, 1)), (0x71, stop(0))]);
    assert_eq!((shelf.show(0)[2], shelf.show(1)[2]), (0x00, 0x61));
}

/// "17 two equal addresses, 18 an address or place not in the row, 6 above 16, 5 an empty row; order
/// 5, 6, 17, 18; they answer number, 00, 00, 00 and change no record."
#[test]
fn the_refusals_in_their_order() {
    let sixteen: Vec<u8> = (0x70..0x80).collect();
    let seventeen: Vec<u8> = (0x70..0x81).collect();
    let mut equal_17 = seventeen.clone();
    equal_17[16] = 0x70;
    let equal = [0x70, 0x71, 0x70];
    for event in one_of_each() {
        for name in [0, 1, 0x70, 0x71, 0xFF] {
            assert_eq!(stays(&shelf(&[]), name, event), [5, 0, 0, 0]);
            assert_eq!(stays(&shelf(&seventeen), name, event), [6, 0, 0, 0]);
            assert_eq!(stays(&shelf(&equal_17), name, event), [6, 0, 0, 0]);
            assert_eq!(stays(&shelf(&equal), name, event), [17, 0, 0, 0]);
        }
        let named = matches!(naming_of(event[0]), Naming::Address | Naming::Place);
        for name in [16, 0x6F, 0x80, 0xFF] {
            let mut row = shelf(&sixteen);
            assert_eq!(row.step(name, event)[0] == 18, named, "{event:?}");
        }
    }
    assert_eq!(shelf(&[]).show(0), [5, 0, 0, 0]);
    assert_eq!(shelf(&equal_17).show(20), [6, 0, 0, 0]);
    assert_eq!(shelf(&equal).show(3), [17, 0, 0, 0]);
    assert_eq!(shelf(&sixteen).show(15), [0, 0, 0, 0x0C]);
    assert_eq!(shelf(&sixteen).show(16), [18, 0, 0, 0]);
}

/// "18 before 2, 3, 4 where something is named."
#[test]
fn a_name_comes_before_the_event() {
    let row = shelf(&[0x70, 0x71]);
    assert_eq!(stays(&row, 0x72, command(2, 0)), [18, 0, 0, 0]);
    assert_eq!(stays(&row, 0x72, stop(0)), [18, 0, 0, 0]);
    assert_eq!(stays(&row, 2, lines(2, 0, 0)), [18, 0, 0, 0]);
    assert_eq!(stays(&row, 2, pulse(0)), [18, 0, 0, 0]);
    assert_eq!(stays(&row, 0x71, command(2, 0)), [3, 0, 0, 0x0C]);
    assert_eq!(stays(&row, 0x71, stop(0)), [4, 0, 0, 0x0C]);
    assert_eq!(stays(&row, 1, lines(2, 0, 0)), [3, 0, 0, 0x0C]);
    assert_eq!(stays(&row, 1, pulse(0)), [4, 0, 0, 0x0C]);
}

/// "Addresses are names: no check of 08h to 77h."
#[test]
fn any_byte_is_an_address() {
    for address in 0..=255 {
        let mut row = shelf(&[address, !address]);
        assert_eq!(set_at(&mut row, address, 0, 1, 0x01)[2], 0x21);
        assert_eq!((row.show(0)[2], row.show(1)[2]), (0x21, 0x00));
    }
}

/// The kinds of part stand side by side: the idle timer takes the bus at 101 ticks and at 151.
#[test]
fn both_parts_in_one_row() {
    let mut row = shelf(&[0x70, 0x71]);
    row.row[1].device = Device::power_up_of(Kind::Tpt29641);
    set_at(&mut row, 0x70, 0, 1, 0x21);
    set_at(&mut row, 0x71, 0, 1, 0x21);
    let owners = |row: &Shelf| (row.show(0)[2] & 3, row.show(1)[2] & 3);
    done(&mut row, &[(0, tick()); 100]);
    assert_eq!(owners(&row), (1, 1));
    done(&mut row, &[(0, tick())]);
    assert_eq!(owners(&row), (0, 1));
    done(&mut row, &[(0, tick()); 50]);
    assert_eq!(owners(&row), (0, 0));
}
