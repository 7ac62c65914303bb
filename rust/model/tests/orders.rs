//! All orders of two start-up scripts (#109): their sequence and number, what is listed of each, the
//! limit, and the refusals.

mod bench;
use bench::*;
use model::happenings::Happenings;
use model::orders::*;
use model::rng::Rng;
use model::scripts::*;

/// Master m asks for the bus.
fn ask(m: u8, contr: u8) -> Vec<[u8; 4]> {
    vec![command(m, 1), write(m, contr), stop(m)]
}

/// All that is listed for two scripts.
fn all(script0: &[[u8; 4]], script1: &[[u8; 4]]) -> Vec<u8> {
    bytes_of_orders(&script0.concat(), &script1.concat()).unwrap()
}

/// The orders as text.
fn texts(events0: usize, events1: usize) -> Vec<String> {
    let text = |pattern: Vec<usize>| pattern.iter().map(usize::to_string).collect();
    patterns(events0, events1).into_iter().map(text).collect()
}

/// The same sequence as the request builds it: an event of script 0 and all ways to go on, then an
/// event of script 1 and all ways to go on.
fn built(events0: usize, events1: usize) -> Vec<String> {
    if events0 + events1 == 0 {
        return vec![String::new()];
    }
    let mut orders = vec![];
    if events0 > 0 {
        orders.extend(built(events0 - 1, events1).iter().map(|rest| format!("0{rest}")));
    }
    if events1 > 0 {
        orders.extend(built(events0, events1 - 1).iter().map(|rest| format!("1{rest}")));
    }
    orders
}

/// "Build each order by taking the next event from script 0 first, then from script 1."
#[test]
fn script_0_comes_first_at_each_point() {
    assert_eq!(texts(2, 1), ["001", "010", "100"]);
    assert_eq!(texts(1, 2), ["011", "101", "110"]);
    assert_eq!(texts(2, 2), ["0011", "0101", "0110", "1001", "1010", "1100"]);
    for events0 in 0..=MOST_SCRIPT {
        for events1 in 0..=MOST_SCRIPT {
            assert_eq!(texts(events0, events1), built(events0, events1));
        }
    }
}

/// "All the orders that keep each script's own order", each once: as many as there are choices of
/// places for script 0.
#[test]
fn as_many_orders_as_choices_of_places() {
    let mut row = vec![1usize];
    let mut triangle = vec![row.clone()];
    for _ in 0..2 * MOST_SCRIPT {
        row = [0].iter().chain(&row).zip(row.iter().chain(&[0])).map(|(a, b)| a + b).collect();
        triangle.push(row.clone());
    }
    for events0 in 0..=MOST_SCRIPT {
        for events1 in 0..=MOST_SCRIPT {
            let mut orders = texts(events0, events1);
            assert_eq!(orders.len(), triangle[events0 + events1][events0]);
            orders.dedup();
            assert_eq!(orders.len(), triangle[events0 + events1][events0]);
        }
    }
    assert_eq!(texts(6, 6).len(), 924);
}

/// Each script's events stand in its own order, and every event once.
#[test]
fn each_script_keeps_its_own_order() {
    let scripts = [
        (0..6).map(|v| write(0, v)).collect::<Vec<_>>(),
        (6..11).map(|v| write(1, v)).collect::<Vec<_>>(),
    ];
    for pattern in patterns(6, 5) {
        let order = order_of(&pattern, &scripts);
        for (m, script) in (0..).zip(&scripts) {
            let own: Vec<_> = order.iter().filter(|event| event[1] == m).copied().collect();
            assert_eq!(own, *script);
        }
        assert_eq!(order.len(), 11);
    }
}

/// "Two empty scripts have one order, whose byte is that of the fresh device."
#[test]
fn two_empty_scripts() {
    assert_eq!(all(&[], &[]), [0x00]);
    assert_eq!(Device::power_up().answer(0, 0)[2], 0x00);
    // One script alone has one order, and that is its run.
    assert_eq!(all(&ask(0, 0x05), &[]), [0x25]);
    assert_eq!(all(&[], &ask(1, 0x05)), [0x2A]);
}

/// Both ask. The first WRITE claims as the sole requester, and at its STOP is granted; so in each
/// order the one whose WRITE comes first owns.
#[test]
fn the_first_to_write_owns() {
    let bytes = all(&ask(0, 0x01), &ask(1, 0x81));
    for (byte, order) in bytes.iter().zip(texts(3, 3)) {
        let second = |m: char| order.match_indices(m).nth(1).unwrap().0;
        let expected = if second('0') < second('1') { 0x21 } else { 0x22 };
        assert_eq!(*byte, expected, "{order}");
    }
    assert_eq!(bytes.iter().filter(|byte| **byte == 0x21).count(), 10);
    // 000111, 001011, 001101, 001110, 010011, 010101, 010110, 011001: the eighth is master 1's.
    assert_eq!(bytes[..8], [0x21, 0x21, 0x21, 0x21, 0x21, 0x21, 0x21, 0x22]);
}

/// Without its STOP the one that claims is never granted, and keeps the other from it.
#[test]
fn a_forgotten_stop() {
    let mut forgets = ask(1, 0x01);
    forgets.pop();
    let bytes = all(&ask(0, 0x01), &forgets);
    assert_eq!(bytes.len(), 10);
    for (byte, order) in bytes.iter().zip(texts(3, 2)) {
        let second = |m: char| order.match_indices(m).nth(1).unwrap().0;
        assert_eq!(*byte, if second('0') < second('1') { 0x21 } else { 0x20 }, "{order}");
    }
}

/// "Every order starts from a fresh PCA9641": nothing of the order before is left, neither a grant
/// nor last granted, nor a level outside.
#[test]
fn every_order_starts_fresh() {
    // The PAIR is refused unless both ports are open for writing, in four orders of ten. In each of
    // these nobody was granted before, so with equal priorities master 0 wins, on ground 3.
    let script0 = [command(0, 1), pair(0x01, 0x01), stop(0)];
    let script1 = [command(1, 1), stop(1)];
    let bytes = all(&script0, &script1);
    let expected = texts(3, 2).into_iter().map(|order| match order.as_str() {
        // Both COMMANDs come before the PAIR, and master 1's STOP after it.
        "01001" | "01010" | "10001" | "10010" => 0x61,
        _ => 0x00,
    });
    assert_eq!(bytes, expected.collect::<Vec<_>>());
    // Twelve events are too few for the idle timer, so that a pointer has to tell the part: that of a
    // PCA9641 stays at 7, and the third byte does not come to CONTR.
    let rolls = [command(0, 0x87), write(0, 1), write(0, 1), write(0, 1), stop(0)];
    assert_eq!(all(&rolls, &[]), [0x00]);
}

/// "The third answer byte after its last event", also of a last event that is refused. Refused ones
/// count, and the run goes on.
#[test]
fn any_event_may_stand_in_a_script() {
    let no_event = [0xFF, 1, 2, 3];
    let script0 = [&ask(0, 0x05)[..], &[no_event]].concat();
    assert_eq!(all(&script0, &[]), [0x25]);
    assert_eq!(all(&script0, &[no_event]), [0x25; 5]);
    // A script may have the other master's events too.
    assert_eq!(all(&ask(1, 0x01), &[]), [0x22]);
    // A reset takes back what came before it, and then what follows is out of sequence: script 0 gets
    // through only where the reset comes first.
    assert_eq!(all(&ask(0, 0x01), &[reset()]), [0x00, 0x00, 0x00, 0x21]);
}

/// Equal events still make separate orders.
#[test]
fn equal_events_make_separate_orders() {
    assert_eq!(all(&[tick(); 2], &[tick(); 2]), [0x00; 6]);
    assert_eq!(all(&[tick(); 6], &[tick(); 6]).len(), 924);
}

/// "The smaller of that limit and the number of orders"; bytes past it stay.
#[test]
fn the_limit() {
    let (script0, script1) = (ask(0, 0x01).concat(), ask(1, 0x01).concat());
    let full = bytes_of_orders(&script0, &script1).unwrap();
    for limit in [0, 1, 19, 20, 21, 924, usize::MAX] {
        let count = limit.min(20);
        for room in [count, count + 1, 30] {
            let mut buffer = vec![0xEE; room];
            let said = list_orders(&script0, &script1, limit, &mut buffer);
            assert_eq!(said, Listed { number: 0, count });
            assert_eq!(buffer[..count], full[..count]);
            assert!(buffer[count..].iter().all(|byte| *byte == 0xEE));
        }
    }
}

/// 5, then 6, then 9; nothing is written, and none is listed.
#[test]
fn refusals_in_order() {
    let assert_refused = |lengths: [usize; 2], limit: usize, room: usize, number: u8| {
        let [script0, script1] = lengths.map(|length| vec![6; length]);
        let mut buffer = vec![0xEE; room];
        let said = list_orders(&script0, &script1, limit, &mut buffer);
        assert_eq!(said, Listed { number, count: 0 }, "{lengths:?}, limit {limit}, room {room}");
        assert_eq!(buffer, vec![0xEE; room]);
    };
    for odd in [1, 2, 3, 25, 29] {
        assert_refused([odd, 0], 1, 1, 5);
        assert_refused([0, odd], 1, 0, 5);
        assert_refused([odd, 28], 1, 0, 5);
        assert_refused([28, odd], 0, 0, 5);
    }
    for long in [28, 32, 400] {
        assert_refused([long, 24], 1, 1, 6);
        assert_refused([0, long], 0, 0, 6);
        assert_refused([long, long], 924, 0, 6);
    }
    assert_refused([0, 0], 1, 0, 9);
    assert_refused([24, 24], 924, 923, 9);
    assert_refused([24, 24], usize::MAX, 923, 9);
    assert_refused([24, 24], 100, 99, 9);
    let mut none = [];
    let said = list_orders(&[6; 24], &[6; 24], 0, &mut none);
    assert_eq!(said, Listed { number: 0, count: 0 });
}

/// The random scripts come to everything.
#[test]
fn random_scripts_reach_everything() {
    let mut sights = Happenings::default();
    for seed in 0..800 {
        let mut rng = Rng::new(seed);
        let mut scripts = good_scripts(&mut rng);
        let number = bytes_of_orders(&scripts[0], &scripts[1]).unwrap().len();
        let limit = rng.pick(&[0, 1, number, number + 1, number / 2]);
        sights.see_orders(&scripts, limit, rng.pick(&[0, number / 2, number]));
        damage_scripts(&mut rng, &mut scripts);
        sights.see_orders(&scripts, 1, rng.pick(&[0, 1]));
    }
    let missing: Vec<_> = ORDER_SIGHTS.iter().filter(|name| sights.count(name) == 0).collect();
    assert!(missing.is_empty(), "never: {missing:?}");
    let unnamed: Vec<_> = sights.counted().filter(|name| !ORDER_SIGHTS.contains(name)).collect();
    assert!(unnamed.is_empty(), "without a name: {unnamed:?}");
}
