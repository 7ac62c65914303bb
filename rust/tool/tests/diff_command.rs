//! `gunwaleish diff` as people call it, and the places where two lists of events differ.

mod common;

use std::fs;

use common::{code, root, run, said, told, Folder};

use gunwaleish::{write_trace, Event};
use gunwaleish_tool::commands::diff::side;
use gunwaleish_tool::diff::{places, Difference, Place};
use gunwaleish_tool::files::Input;
use model::rng::Rng;
use model::traces::trace;

const EMPTY: &str = "traces/box14-rt00.trace";
const FILLED: &str = "traces/box14-rt50.trace";

/// A script and its trace are alike, and so is anything and itself.
#[test]
fn alike_is_0() {
    let pairs = [
        ["traces/m1.script", "traces/m1.trace"],
        ["traces/box14-rt50.trace", "traces/box14-rt50.script"],
        [EMPTY, EMPTY],
    ];
    for pair in pairs {
        let output = run(&["diff", pair[0], pair[1]]);
        assert_eq!((code(&output), said(&output).as_str()), (0, ""), "{pair:?}");
        let last = told(&output).lines().last().unwrap().to_string();
        assert!(last.starts_with("Alike: pins, part, ") && last.ends_with(" the same."), "{last}");
    }
}

/// Box 14, empty and filled in: two bytes of events differ, and the answers first at the 50th tick.
#[test]
fn box_14_in_words() {
    let output = run(&["diff", EMPTY, FILLED]);
    assert_eq!((code(&output), said(&output).as_str()), (1, ""));
    let text = told(&output);
    for part in [
        "A: traces/box14-rt00.trace: PCA9641 at address 71h, pins 0 0 0 1, 320 events\n\
         B: traces/box14-rt50.trace: PCA9641 at address 71h, pins 0 0 0 1, 320 events\n\n\
         The events differ in ",
        "    A  0 WRITE 00h to RT\n    B  0 WRITE 32h to RT\n",
        "\nThe answers first differ at event 64 of both, tick 50, in the owner, the switch",
        "    A  tick 50: done; nothing changes; then controller 0 owns the bus and is connected, \
         controller 1 waits\n",
        "    B  tick 50: done; controller 0 loses the bus; controller 1 claims the bus: it alone asks; \
         controller 1 is granted the bus with RT 32h",
        "\nAt the end:\n    A  controller 0 owns the bus and is connected, controller 1 waits\n    \
         B  nobody owns the bus\n",
    ] {
        assert!(text.contains(part), "{part}\n{text}");
    }
}

/// The part alone: the same events, and answers that differ where the idle timers do.
#[test]
fn the_part_is_told() {
    let output = run(&["diff", "traces/box14-idle.trace", "traces/box14-idle-tpt29641.trace"]);
    let text = told(&output);
    assert_eq!(code(&output), 1);
    assert!(text.contains("The parts differ:\n    A  On a PCA9641 the idle timer"), "{text}");
    assert!(text.contains("\nThe events are the same.\n"), "{text}");
    assert!(
        text.contains("The answers first differ at event 115 of both, tick 101, in the owner"),
        "{text}"
    );
    let folder = Folder::new("diff-pins");
    let m1 = text_of("traces/m1.script");
    let other = folder.path("m1.script");
    fs::write(&other, m1.replace("pins 0 0 0 0", "pins 0 0 0 1")).unwrap();
    let output = run(&["diff", "traces/m1.script", &other]);
    assert_eq!(code(&output), 1, "{}", told(&output));
    assert!(
        told(&output).contains("The pins differ, which changes no answer:\n    A  pins 0 0 0 0")
    );
    assert!(
        told(&output).contains("The answers are the same in all 4 events that belong together.")
    );
}

/// Events that only one of them has, at the beginning and in the middle.
#[test]
fn what_only_one_has_is_told() {
    let folder = Folder::new("diff-more");
    let (none, more) = (folder.path("none.script"), folder.path("more.script"));
    fs::write(&none, "pins 0 0 0 0\npart PCA9641\n").unwrap();
    let output = run(&["diff", &none, "traces/m1.trace"]);
    assert_eq!(code(&output), 1);
    let expected =
        "before event 1 of A, events 1 to 4 of B\n    A  nothing\n    B  0 COMMAND 01h (CONTR)\n";
    assert!(told(&output).contains(expected), "{}", told(&output));
    assert!(told(&output)
        .contains("\nNo events belong together, so there are no answers to compare.\n"));
    assert!(told(&output).contains("\nAt the end:\n    A  no event\n"), "{}", told(&output));
    fs::write(&more, text_of("traces/m1.script").replace("stop 0", "tick 20\nstop 0")).unwrap();
    let output = run(&["diff", "traces/m1.trace", &more]);
    let expected =
        "after event 2 of A, events 3 to 22 of B\n    A  nothing\n    B  ticks 1 to 20\n\n\
                    The answers are the same in all 4 events that belong together.\n";
    assert!(told(&output).contains(expected), "{}", told(&output));
}

fn text_of(path: &str) -> String {
    fs::read_to_string(root().join(path)).unwrap()
}

/// What is no trace and no script, and wrong use. Nothing comes out, and the code is not that of a
/// difference.
#[test]
fn trouble_is_2() {
    let cases: [(&[&str], &str); 6] = [
        (&[], "diff needs two files, traces or scripts, and has 0"),
        (&[EMPTY], "and has 1"),
        (&["-", "-"], "standard input cannot be both files"),
        (&[EMPTY, "no-such.trace"], "no-such.trace cannot be read: "),
        (&[EMPTY, "traces/refused-cut.trace"], "refused-cut.trace: refusal 5: cut"),
        (&["traces/README.md", EMPTY], "traces/README.md, line 3: 'Each', expected command"),
    ];
    for (files, expected) in cases {
        let output = run(&[&["diff"], files].concat());
        assert_eq!((code(&output), told(&output).as_str()), (2, ""), "{files:?}");
        assert!(said(&output).contains(expected), "{files:?}: {}", said(&output));
    }
}

/// The lists are put together again from their places and what is the same between them.
#[test]
fn the_places_are_those_where_the_lists_differ() {
    let mut rng = Rng::new(37);
    let mut several = 0;
    for _ in 0..400 {
        let event = |rng: &mut Rng| match rng.below(3) {
            0 => Event::Tick,
            1 => Event::Reset,
            _ => Event::Raw([255, 0, 0, rng.below(2) as u8]),
        };
        let a: Vec<Event> = (0..rng.below(30)).map(|_| event(&mut rng)).collect();
        let mut b = a.clone();
        for _ in 0..rng.below(5) {
            let place = rng.below(b.len() as u64 + 1) as usize;
            match rng.below(2) {
                0 => b.insert(place, event(&mut rng)),
                _ if place < b.len() => drop(b.remove(place)),
                _ => {}
            }
        }
        let found = places(&a, &b);
        assert_eq!(found.is_empty(), a == b);
        several += usize::from(found.len() > 1);
        let (mut i, mut again) = (0, vec![]);
        for Place { a: of_a, b: of_b } in &found {
            assert!(!(of_a.is_empty() && of_b.is_empty()) && of_a.start >= i);
            again.extend_from_slice(&a[i..of_a.start]);
            assert_eq!(again.len(), of_b.start);
            again.extend_from_slice(&b[of_b.clone()]);
            i = of_a.end;
        }
        again.extend_from_slice(&a[i..]);
        assert_eq!(again, b);
    }
    assert!(several > 50, "{several}");
}

/// The first answer that differs is the first of all that differ, event by event.
#[test]
fn the_first_answer_is_the_first() {
    let mut rng = Rng::new(7);
    let mut differ = 0;
    for seed in 0..60 {
        let first = gunwaleish::run(&trace(seed, 80)).unwrap();
        let mut events = first.events.clone();
        let place = rng.below(events.len() as u64) as usize;
        events[place] = Event::Reset;
        let other = write_trace(first.pins, first.part, &events).unwrap();
        let answers = gunwaleish::run(&other).unwrap().answers;
        let input = |name: &str, bytes| Input { name: name.to_string(), bytes };
        let a = side(&input("a", trace(seed, 80))).unwrap();
        let b = side(&input("b", other)).unwrap();
        let difference = Difference::between(&a, &b);
        if difference.pairs.iter().all(|(i, j)| i == j) && difference.pairs.len() == events.len() {
            let expected = (0..events.len()).find(|&at| first.answers[at] != answers[at]);
            assert_eq!(difference.answers.first().map(|pair| pair.0), expected, "seed {seed}");
            differ += usize::from(expected.is_some());
        }
    }
    assert!(differ > 20, "{differ}");
}
