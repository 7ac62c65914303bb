//! The verdict over a bundle: the reasons that stand in what is run, the start-up scripts in all their orders,
//! the traces of the bench, and the scripts for the shelf.

mod bundles;

use bundles::{
    good_starts, judged, pair, pins, ranks, read, sheet, start, waits, with_shelf, with_starts,
    with_trace, GOOD, OPEN,
};
use gunwaleish::{Event, Master, Part, Section};
use gunwaleish_tool::release::judge::examine;
use gunwaleish_tool::release::words::told;
use gunwaleish_tool::release::{Asked, Bundle, Rank};
use gunwaleish_tool::script::write_script;
use gunwaleish_tool::sheet::BoxName;

/// The packer of the incident wrote 00h, whatever the sheet says. Any other value than is ordered is
/// caught, box by box, on either part.
#[test]
fn scripts_that_leave_other_settings_are_reasons() {
    let scripts = |rt0, contr0, rt1, contr1| {
        [start(Master::Zero, rt0, contr0), start(Master::One, rt1, contr1)]
    };
    let cases = [
        (
            scripts(0, 0x01, 20, 0xA1),
            Section::Reserve,
            Master::Zero,
            "RT is left at 00h, which is without limit",
        ),
        (scripts(50, 0x01, 50, 0xA1), Section::Reserve, Master::One, "RT is left at 32h, 50 ms"),
        (scripts(50, 0x85, 20, 0xA1), Section::Priority, Master::Zero, "priority is left at 1"),
        (scripts(50, 0x01, 20, 0x25), Section::Priority, Master::One, "priority is left at 0"),
        (scripts(50, 0x21, 20, 0xA5), Section::Idle, Master::Zero, "idle timer is left on"),
        (scripts(50, 0x05, 20, 0x81), Section::Idle, Master::One, "idle timer is left off"),
    ];
    for part in Part::BOTH {
        for (starts, section, controller, words) in &cases {
            let examined = judged(with_starts(part, starts.clone()));
            assert_eq!(ranks(&examined), [Rank::NotAsOrdered], "{}", told(&examined));
            let reason = &examined.reasons[0];
            let name = BoxName { section: *section, controller: *controller };
            assert_eq!(reason.file, format!("{controller}.script"));
            assert_eq!(reason.place, Some(format!("{name}, order 000000111111")));
            let said = format!(
                "In all 924 orders controller {controller}'s {words}, and the sheets order "
            );
            assert!(reason.what.starts_with(&said), "{}", reason.what);
        }
    }
}

/// A reset in the other script takes the settings only where it comes after them: both files are named.
#[test]
fn settings_that_some_orders_lose_are_reasons() {
    let [zero, _] = good_starts();
    let one = [vec![Event::Reset], start(Master::One, 20, 0xA1)[..5].to_vec()].concat();
    let examined = judged(with_starts(Part::Pca9641, [zero, one]));
    let lost = examined.reasons.iter().find(|reason| reason.rank == Rank::NotAsOrdered).unwrap();
    assert_eq!(lost.file, "0.script and 1.script");
    assert!(
        lost.what.starts_with("In ")
            && lost.what.contains(" of 924 orders controller 0's RT is left at 00h")
    );
    assert!(ranks(&examined).contains(&Rank::EventRefused), "{}", told(&examined));
    assert!(ranks(&examined).contains(&Rank::NobodyOwns), "{}", told(&examined));
    // The picture is of the worst: an order after which nobody owns.
    let orders = examined.orders.unwrap();
    assert!(orders.endings[orders.worst].is_stuck());
}

#[test]
fn a_forgotten_stop_is_a_reason() {
    let [zero, one] = good_starts();
    let examined = judged(with_starts(Part::Pca9641, [zero, one[..5].to_vec()]));
    assert_eq!(ranks(&examined)[0], Rank::NobodyOwns, "{}", told(&examined));
    let first = &examined.reasons[0];
    assert_eq!(first.file, "0.script and 1.script");
    let pattern = first.place.as_deref().unwrap().strip_prefix("order ").unwrap();
    assert!(first.mend.ends_with(&format!("--order {pattern} | gunwaleish explain")));
    let orders = examined.orders.unwrap();
    let ending = &orders.endings[orders.worst];
    assert!(ending.is_stuck() && ending.pattern.to_string() == pattern);
}

#[test]
fn scripts_that_cannot_be_tried_are_reasons() {
    let good = write_script(pins(), Part::Pca9641, &good_starts()[0]);
    let other = good.replace("PCA9641", "TPT29641");
    let long = write_script(pins(), Part::Pca9641, &[Event::Tick; 7]);
    let cases = [
        (
            "pins 0 0 0 1\npart PCA9641\nsing\n".to_string(),
            "1.script",
            Some("line 3"),
            "'sing', expected command",
        ),
        ("pins 1 0 0 0\npart PCA9641\n".to_string(), "1.script", Some("line 1"), "refusal 8: "),
        (
            other,
            "0.script and 1.script",
            None,
            "a PCA9641 with pins 0 0 0 1, the other for a TPT29641",
        ),
        (
            long,
            "1.script",
            None,
            "refusal 6: a start-up script has more than six events, and it has 7.",
        ),
        ("#".repeat((1 << 24) + 1), "1.script", None, "longer than 16 MiB"),
    ];
    for (script, file, place, words) in cases {
        let scripts = [read("0.script", good.clone()), read("1.script", script)];
        let examined = judged(Bundle { scripts: Some(scripts), ..pair(GOOD, OPEN) });
        assert_eq!(ranks(&examined), [Rank::FileRefused]);
        let reason = &examined.reasons[0];
        assert_eq!((reason.file.as_str(), reason.place.as_deref()), (file, place));
        assert!(reason.what.contains(words), "{}", reason.what);
        assert_eq!(examined.orders, None);
    }
}

/// By the longest wait of the proved totals: the tick at which controller 0's reserve ends is the first
/// that controller 1 does not wait any more.
#[test]
fn a_trace_that_waits_longer_is_a_reason() {
    for reserve in 45..60 {
        let examined = judged(with_trace(waits(reserve, 120)));
        let totals = examined.bench[0].totals.unwrap();
        assert_eq!(totals.longest(Master::One), u64::from(reserve) - 1);
        let longer = reserve - 1 > 51;
        assert_eq!(examined.bench[0].longer, [false, longer]);
        assert_eq!(ranks(&examined), vec![Rank::WaitsLonger; usize::from(longer)], "{reserve}");
        for reason in &examined.reasons {
            assert_eq!(
                (reason.file.as_str(), reason.place.as_deref()),
                ("a.trace", Some("controller 1"))
            );
            let said = format!(
                "Controller 1 waits {} ms there, and the sheets promise it 51 ms at most.",
                reserve - 1
            );
            assert_eq!(reason.what, said);
            assert!(reason.mend.contains("gunwaleish explain a.trace"));
        }
    }
}

/// Where nothing is promised, no wait is too long; and that is told.
#[test]
fn without_a_promise_no_wait_is_judged() {
    let mut boxes = GOOD;
    boxes[0] = Some(0);
    let bundle = Bundle { board: read("b.sheet", sheet(boxes)), ..with_trace(waits(0, 900)) };
    let examined = examine(bundle, Asked { most: None, without_limit: [true, false] });
    assert_eq!(examined.bench[0].totals.unwrap().longest(Master::One), 900);
    assert!(examined.is_released(), "{}", told(&examined));
    let said =
        "\nNothing is promised to controller 1, so no wait of the bench is held against it.\n";
    assert!(told(&examined).contains(said), "{}", told(&examined));
}

#[test]
fn a_refused_trace_is_a_reason() {
    let mut cut = waits(50, 9);
    cut.truncate(30);
    let long = vec![7; 1 + gunwaleish::MOST_TRACE];
    for (bytes, place, words) in [
        (cut, "byte 30", "refusal 5: "),
        (long, "byte 0", "refusal 10: "),
        (vec![], "byte 0", "refusal 5: "),
    ] {
        let examined = judged(with_trace(bytes));
        assert_eq!(ranks(&examined), [Rank::FileRefused]);
        let reason = &examined.reasons[0];
        assert_eq!((reason.file.as_str(), reason.place.as_deref()), ("a.trace", Some(place)));
        let said = format!("It is no trace: {words}");
        assert!(reason.what.starts_with(&said), "{}", reason.what);
    }
}

const TWO: &str = "70 PCA9641\n71 TPT29641\n";

/// A shelf that is none, and a script that cannot be read: both texts, the file and its line, and what is said.
const UNREAD: [(&str, &str, &str, &str, &str); 4] = [
    ("70 PCA9641\n70 PCA9641\n", "tick\n", "a.shelf", "line 2", "refusal 17: "),
    ("", "tick\n", "a.shelf", "line 1", "refusal 5: "),
    ("70\n", "tick\n", "a.shelf", "line 1", "the line ends, expected the name of a part"),
    (TWO, "tick\nsing\n", "a.script", "line 2", "'sing', expected at, place"),
];

/// Events that are refused: the script, the place, and what is said.
const EVENTS: [(&str, &str, &str); 3] = [
    ("tick\nat 75 stop 0\n", "line 2, event 2", "refusal 18: no device has address 75h"),
    (
        "tick 3\nat 71 stop 0\n",
        "line 2, event 4",
        "place 1, address 71h: refused 4: out of sequence",
    ),
    (
        "tick\nraw FF 00 00 00\nat 71 stop 0\n",
        "line 2, event 2",
        "refused 2: unknown kind, and 1 event more",
    ),
];

/// A shelf: what is none, a script that cannot be read, events that are refused, and a place that waits.
#[test]
fn a_shelf_has_its_reasons() {
    let asks = |m: usize, rt: &str| {
        format!("at 71 command {m} 03\nat 71 write {m} {rt}\nat 71 stop {m}\nat 71 command {m} 01\nat 71 write {m} 05\nat 71 stop {m}\n")
    };
    let both = [asks(0, "50"), asks(1, "14"), "tick 90\n".to_string()].concat();
    let place = "place 1, address 71h, controller 1";
    one_reason(
        TWO,
        &both,
        Rank::WaitsLonger,
        ("a.script", place),
        "Controller 1 waits 79 ms there",
    );
    for (shelf, script, file, place, words) in UNREAD {
        one_reason(shelf, script, Rank::FileRefused, (file, place), words);
    }
    for (script, place, words) in EVENTS {
        one_reason(TWO, script, Rank::EventRefused, ("a.script", place), words);
    }
}

/// This shelf with this script has one reason, of this rank, at this place of this file, with these words.
fn one_reason(shelf: &str, script: &str, rank: Rank, at: (&str, &str), words: &str) {
    let examined = judged(with_shelf(shelf, script));
    assert_eq!(ranks(&examined), [rank], "{}", told(&examined));
    let reason = &examined.reasons[0];
    assert_eq!((reason.file.as_str(), reason.place.as_deref()), (at.0, Some(at.1)));
    assert!(reason.what.contains(words), "{}", reason.what);
}
