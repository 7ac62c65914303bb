//! The verdict over a bundle: the reasons that stand on its sheets, what is waived and what never is, and
//! the worst first. What is run has its reasons in `release_runs.rs`.

mod bundles;

use bundles::{
    good_starts, judged, pair, pins, ranks, read, sheet, start, waits, with_shelf, with_starts,
    with_trace, GOOD, OPEN,
};
use gunwaleish::{write_trace, Event, Master, Part};
use gunwaleish_tool::form::write;
use gunwaleish_tool::release::judge::examine;
use gunwaleish_tool::release::words::{told, verdict};
use gunwaleish_tool::release::{Asked, Bundle, Examined, Rank};
use gunwaleish_tool::sheet::BoxName;

#[test]
fn a_good_bundle_is_released() {
    for bundle in [
        pair(GOOD, OPEN),
        pair(OPEN, GOOD),
        with_starts(Part::Pca9641, good_starts()),
        with_starts(Part::Tpt29641, good_starts()),
        with_trace(waits(50, 120)),
        with_shelf(
            "70 PCA9641\n71 TPT29641\n",
            "at 71 command 0 01\nat 71 write 0 05\nat 71 stop 0\ntick 60\n",
        ),
    ] {
        let examined = judged(bundle);
        assert_eq!(examined.reasons, [], "{}", told(&examined));
        assert!(examined.is_released() && examined.allowed.is_empty());
        let line = "RELEASED: controller 0 waits at most 21 ms, controller 1 waits at most 51 ms";
        assert_eq!(verdict(&examined), line);
        assert!(told(&examined).ends_with(&format!("\n{line}\n")));
    }
}

/// Each of the 64 ways to leave boxes empty: each empty box is a reason of its own, and nothing else is.
#[test]
fn every_empty_box_is_named() {
    for left in 0..64 {
        let kept = |place: usize, value: Option<u8>| value.filter(|_| left >> place & 1 == 0);
        let mut boxes = GOOD;
        boxes.iter_mut().enumerate().for_each(|(place, value)| *value = kept(place, *value));
        for bundle in [pair(boxes, OPEN), pair(OPEN, boxes)] {
            let examined = judged(bundle);
            let names = BoxName::all().enumerate().filter(|(place, _)| left >> place & 1 == 1);
            let expected: Vec<String> = names.map(|(_, name)| name.to_string()).collect();
            let found = examined.reasons.iter().map(|reason| reason.place.clone().unwrap());
            assert_eq!(found.collect::<Vec<_>>(), expected);
            for reason in &examined.reasons {
                assert_eq!(
                    (reason.rank, reason.file.as_str()),
                    (Rank::EmptyBox, "b.sheet and h.sheet")
                );
                assert!(reason.mend.contains("b.sheet") && reason.mend.contains("h.sheet"));
            }
        }
    }
}

/// The reserves and idle timers of a pair of sheets, and what is asked for on purpose; controller 0's come first.
#[derive(Clone, Copy, Debug)]
struct Case {
    reserves: [u8; 2],
    idle: [u8; 2],
    without_limit: [bool; 2],
}

/// The reasons that a pair has to have, each with the controller whose box it is about.
fn reasons_of(case: Case) -> Vec<(Rank, usize)> {
    let of = |holder: usize| match (case.reserves[holder], case.without_limit[holder]) {
        (0, true) => None,
        (0, false) if case.idle[holder] == 0 => Some((Rank::Unbounded, holder)),
        (0, false) => Some((Rank::SilentAlone, holder)),
        (_, true) => Some((Rank::NotWithoutLimit, holder)),
        (_, false) => None,
    };
    let mut expected: Vec<_> = [0, 1].into_iter().filter_map(of).collect();
    expected.sort_by_key(|(rank, holder)| (*rank, 1 - holder));
    expected
}

/// A wait is told by the reserve and the idle timer of the partner, and is passed only if it has a bound
/// behind a live one, or on purpose.
#[test]
fn waits_without_a_bound_are_reasons() {
    let mut seen = [0; 3];
    for reserves in [[0, 0], [0, 1], [1, 0], [255, 0], [0, 255], [7, 9]] {
        for bits in 0..16 {
            let bit = |place: u8| bits >> place & 1;
            let without_limit = [bit(2), bit(3)].map(|bit| bit == 1);
            let case = Case { reserves, idle: [bit(0), bit(1)], without_limit };
            let examined = examined(case);
            let expected = reasons_of(case);
            assert_eq!(found_in(&examined), expected, "{case:?}");
            let passed = examined.allowed.iter().map(|allowed| allowed.controller as usize);
            let zero = (0..2).filter(|&m| reserves[m] == 0 && without_limit[m]);
            assert!(passed.eq(zero), "{case:?}");
            seen[0] += examined.allowed.len();
            seen[1] += expected.len();
            seen[2] += usize::from(examined.is_released());
        }
    }
    assert!(seen.iter().all(|&number| number > 8), "{seen:?}");
}

fn examined(case: Case) -> Examined {
    let [reserve0, reserve1] = case.reserves.map(Some);
    let [idle0, idle1] = case.idle.map(Some);
    let boxes = [reserve0, reserve1, Some(0), Some(0), idle0, idle1];
    examine(pair(OPEN, boxes), Asked { most: None, without_limit: case.without_limit })
}

/// The reasons that were found, all about reserves of the house sheet, the worst first.
fn found_in(examined: &Examined) -> Vec<(Rank, usize)> {
    let found = examined.reasons.iter().map(|reason| {
        assert_eq!(reason.file, "h.sheet");
        let place = reason.place.as_deref().unwrap();
        let holder = place.strip_prefix("Downstream reserve, ms, controller ").unwrap();
        (reason.rank, holder.parse::<usize>().unwrap())
    });
    let mut found: Vec<_> = found.collect();
    assert!(found.is_sorted_by_key(|(rank, _)| *rank));
    found.sort_by_key(|(rank, holder)| (*rank, 1 - holder));
    found
}

#[test]
fn a_limit_on_purpose_is_told_with_the_verdict() {
    let asked = |without_limit| Asked { most: None, without_limit };
    let of = |boxes, flags| examine(pair(boxes, OPEN), asked(flags));
    let mut one = GOOD;
    one[0] = Some(0);
    let examined = of(one, [true, false]);
    assert_eq!(
        verdict(&examined),
        "RELEASED, with controller 0's reserve without limit on purpose: controller 0 waits at most 21 \
         ms, controller 1 waits without limit behind a live controller 0"
    );
    let text = told(&examined);
    assert!(text.contains(
        "\nAllowed by --without-limit 0: Controller 1 waits without limit behind controller 0: reserve 00h \
         and the idle timer off.\n"
    ));
    let mut both = one;
    both[1] = Some(0);
    let line = verdict(&of(both, [true, true]));
    assert!(
        line.starts_with("RELEASED, with both controllers' reserves without limit on purpose: "),
        "{line}"
    );
    // An empty box is no 0, and no option passes it.
    let mut empty = GOOD;
    empty[0] = None;
    let examined = of(empty, [true, true]);
    assert_eq!(ranks(&examined), [Rank::EmptyBox, Rank::NotWithoutLimit, Rank::NotWithoutLimit]);
    assert!(examined.reasons[1].what.ends_with("but its box is empty, and that is no 0."));
    assert!(examined.allowed.is_empty());
}

#[test]
fn a_promised_wait_is_held_to_the_most() {
    for most in 0..60 {
        let asked = Asked { most: Some(most), without_limit: [false; 2] };
        let examined = examine(pair(GOOD, OPEN), asked);
        let expected: Vec<(u64, &str)> = [(21, "controller 1"), (51, "controller 0")]
            .into_iter()
            .filter(|(wait, _)| *wait > most)
            .collect();
        assert_eq!(ranks(&examined), vec![Rank::AboveMost; expected.len()]);
        for (reason, (wait, holder)) in examined.reasons.iter().zip(expected) {
            assert!(reason
                .what
                .contains(&format!("may wait {wait} ms, and --most allows {most} ms")));
            assert_eq!(reason.place, Some(format!("Downstream reserve, ms, {holder}")));
            // What is advised helps.
            let Some(reserve) = most.checked_sub(1).filter(|reserve| *reserve > 0) else {
                assert!(reason.mend.contains("with 1 ms, the shortest, it is 2 ms"));
                continue;
            };
            assert!(reason.mend.contains(&format!("at most {reserve} ms")), "{}", reason.mend);
            let reserve = Some(reserve as u8);
            let mended = [reserve, reserve, Some(0), Some(0), Some(0), Some(0)];
            assert!(examine(pair(mended, OPEN), asked).is_released());
        }
    }
}

#[test]
fn what_is_no_sheet_is_told_by_its_byte() {
    let mut bundle = pair(GOOD, GOOD);
    bundle.board.bytes.truncate(9);
    bundle.house.bytes[11] = 2;
    let examined = judged(bundle);
    assert_eq!(ranks(&examined), [Rank::NoSheet; 2]);
    let [board, house] = examined.reasons.as_slice() else { unreachable!() };
    assert_eq!((board.file.as_str(), board.place.as_deref()), ("b.sheet", Some("byte 9")));
    assert!(board.what.starts_with("It is no board sheet: refusal 5: "), "{}", board.what);
    assert_eq!((house.file.as_str(), house.place.as_deref()), ("h.sheet", Some("byte 11")));
    assert!(house.what.starts_with("It is no house sheet: refusal 3: "), "{}", house.what);
    assert!(examined.pair.is_err() && verdict(&examined) == "NOT RELEASED: 2 reasons");
}

/// All reasons at once: each is told, the worst first, and each by its number in the text.
#[test]
fn the_worst_comes_first() {
    let [zero, one] = good_starts();
    let wrong = [start(Master::Zero, 9, 0x01), [vec![Event::Reset], one[..5].to_vec()].concat()];
    let mut bundle = with_starts(Part::Pca9641, wrong);
    bundle.board = read("b.sheet", sheet([Some(0), Some(90), Some(0), Some(1), Some(1), Some(1)]));
    bundle.traces = vec![
        read("a.trace", vec![1]),
        read("b.trace", {
            let events = [start(Master::One, 0, 1), zero, vec![Event::Tick; 300]].concat();
            write_trace(pins(), Part::Pca9641, &events).unwrap()
        }),
    ];
    bundle.shelf = with_shelf("70 PCA9641\n", "at 75 stop 0\n").shelf;
    let asked = Asked { most: Some(60), without_limit: [false, true] };
    let examined = examine(bundle, asked);
    let found = ranks(&examined);
    assert!(found.is_sorted(), "{found:?}");
    for rank in [
        Rank::SilentAlone,
        Rank::NobodyOwns,
        Rank::NotAsOrdered,
        Rank::AboveMost,
        Rank::WaitsLonger,
        Rank::EventRefused,
        Rank::FileRefused,
        Rank::NotWithoutLimit,
    ] {
        assert!(found.contains(&rank), "{rank:?}: {}", told(&examined));
    }
    each_is_told(&examined);
}

/// Each reason stands in the text under its number, in sentences.
fn each_is_told(examined: &Examined) {
    let text = told(examined);
    let count = examined.reasons.len();
    assert!(text.contains(&format!("\nNOT RELEASED: {count} reasons\n")));
    let mut rest = text.as_str();
    for (number, reason) in (1..).zip(&examined.reasons) {
        let head = format!("\n{number}. {}", reason.file);
        rest = rest.split_once(&head).unwrap_or_else(|| panic!("{head}")).1;
        assert!(rest.contains(&format!("\n   {}\n   To mend it: {}\n", reason.what, reason.mend)));
    }
    // A sentence each.
    for reason in &examined.reasons {
        assert!(reason.what.ends_with('.') && !reason.what.ends_with(".."), "{}", reason.what);
        assert!(!reason.what.starts_with(char::is_lowercase), "{}", reason.what);
    }
}

/// The text that people read and the sheet that goes out: each box in which they differ is a reason, and so
/// is a text that cannot have given the sheet.
#[test]
fn a_sheet_is_what_its_text_says() {
    let with_text = |text: &str| {
        let text = read("b.txt", text);
        Bundle { texts: [Some(text), None], ..pair(GOOD, OPEN) }
    };
    assert!(judged(with_text(&write(GOOD))).is_released());
    let other = [Some(0), Some(21), None, Some(0), Some(1), None];
    for differ in 1..64 {
        let mut boxes = GOOD;
        let changed = |place: &usize| differ >> place & 1 == 1;
        (0..6).filter(changed).for_each(|place| boxes[place] = other[place]);
        let examined = judged(with_text(&write(boxes)));
        let names = BoxName::all().enumerate().filter(|(place, _)| changed(place));
        let names: Vec<Option<String>> = names.map(|(_, name)| Some(name.to_string())).collect();
        let found = examined.reasons.iter().map(|reason| reason.place.clone());
        assert_eq!(found.collect::<Vec<_>>(), names);
        for reason in &examined.reasons {
            assert_eq!((reason.rank, reason.file.as_str()), (Rank::OtherText, "b.txt and b.sheet"));
            assert!(reason.mend.ends_with("gunwaleish fill b.txt -o b.sheet"));
        }
        if differ == 1 {
            let said = "The text says without limit, and the sheet that goes out has 50.";
            assert_eq!(examined.reasons[0].what, said);
        }
    }
    let bare = write(GOOD).replace("controller 0: 50", "controller 0: 0");
    for (text, place) in [(bare.as_str(), Some("line 5")), ("Good morning.\n", Some("line 1"))] {
        let examined = judged(with_text(text));
        assert_eq!(ranks(&examined), [Rank::OtherText]);
        let reason = &examined.reasons[0];
        assert_eq!(reason.place.as_deref(), place);
        assert!(reason.what.starts_with("The text cannot have given the sheet"), "{}", reason.what);
    }
}
