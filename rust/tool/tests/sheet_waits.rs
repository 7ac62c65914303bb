//! How long each controller can wait by two order sheets, in words, and the boxes that do not last.

use gunwaleish::{sheet_wait, Master, Part, Wait};
use gunwaleish_tool::commands::sheet::{sheet, Wanted};
use gunwaleish_tool::files::Input;
use model::rng::Rng;
use model::sheets::good_pair;

/// A sheet that ticks every box: reserves, priorities and idle timers of controllers 0 and 1.
fn sheet_of(values: [u8; 6]) -> Vec<u8> {
    values.chunks(2).flat_map(|two| [2, 1, two[0], 1, two[1]]).collect()
}

/// One that ticks none.
const BARE: [u8; 15] = [2, 0, 0, 0, 0, 2, 0, 0, 0, 0, 2, 0, 0, 0, 0];

/// The words of a pair.
fn told(board: &[u8], house: &[u8]) -> String {
    let input = |name: &str, bytes: &[u8]| Input { name: name.to_string(), bytes: bytes.to_vec() };
    let made = sheet(&input("a.sheet", board), &input("b.sheet", house), Wanted::Words);
    String::from_utf8(made.output.unwrap_or_default()).unwrap()
}

/// The lines after the one that starts so, up to an empty one.
fn lines_after(text: &str, head: &str) -> Vec<String> {
    let mut lines = text.lines().skip_while(|line| !line.starts_with(head));
    let found = lines.next().map(|_| lines.take_while(|line| !line.is_empty()));
    found.into_iter().flatten().map(String::from).collect()
}

fn waits(text: &str) -> Vec<String> {
    lines_after(text, "How long each can wait from then on")
}

fn lasting(text: &str) -> Vec<String> {
    lines_after(text, "These boxes live in CONTR")
}

const HOLDS: &str =
    "The figures hold for one that keeps asking, if the bus is idle then and its own \
                     port at rest, else once they are; with no reset, and with RT left as ordered.";

/// The incident's own setting, and what the boxes can be instead.
#[test]
fn each_grade_is_told_for_both_controllers() {
    let incident = waits(&told(&sheet_of([0; 6]), &BARE));
    let without = |waiting, holder| {
        format!(
            "Controller {waiting} waits without limit behind controller {holder}: reserve 00h and the \
             idle timer off."
        )
    };
    assert_eq!(incident, [without(0, 1), without(1, 0)]);
    let live = waits(&told(&sheet_of([50, 20, 0, 1, 0, 1]), &BARE));
    let bounded = |waiting, ticks, holder| {
        format!(
            "Controller {waiting} waits at most {ticks} ms behind a controller {holder} that sends its \
             STOPs."
        )
    };
    assert_eq!(live, [bounded(0, 21, 1), bounded(1, 51, 0), HOLDS.to_string()]);
    let silent = waits(&told(&sheet_of([0, 255, 0, 0, 1, 0]), &BARE));
    let only = "Controller 1 waits at most 101 ms on a PCA9641, 151 ms on a TPT29641, counted from \
                controller 0's grant, but only behind a silent controller 0 on an idle bus, and only \
                while controller 0's CONTR keeps its idle timer on; behind a live one it waits without \
                limit.";
    assert_eq!(silent, [bounded(0, 256, 1), only.to_string(), HOLDS.to_string()]);
}

/// On any pair: no figure if a box is empty, and else the library's.
#[test]
fn the_figures_are_the_librarys() {
    let mut rng = Rng::new(33);
    let mut seen = [0; 4];
    for _ in 0..2000 {
        let ticked = rng.pick(&[60, 90, 100]);
        let [mut board, mut house] = good_pair(&mut rng, ticked);
        // Reserves of 0 are rare otherwise.
        for at in [1, 3] {
            if rng.percent(50) {
                board[at + 1] = 0;
                house[at + 1] = 0;
            }
        }
        let text = told(&board, &house);
        let lines = waits(&text);
        for (place, controller) in Master::BOTH.into_iter().enumerate() {
            let wait = Part::BOTH.map(|part| sheet_wait(&board, &house, controller, part).ok());
            let said = match wait {
                [Some(Wait::Live { ticks }), _] => format!(" waits at most {ticks} ms behind a "),
                [Some(Wait::Silent { ticks: one }), Some(Wait::Silent { ticks: two })] => {
                    format!(
                        " waits at most {one} ms on a PCA9641, {two} ms on a TPT29641, counted from "
                    )
                }
                [Some(_), _] => " waits without limit behind controller ".to_string(),
                [None, _] => {
                    assert!(lines.is_empty() && text.contains("\nNot complete: "), "{text}");
                    seen[0] += 1;
                    continue;
                }
            };
            seen[usize::from(wait[0].map_or(0, Wait::grade))] += 1;
            assert!(lines[place].starts_with(&format!("Controller {controller}{said}")), "{text}");
        }
    }
    assert!(seen.iter().all(|&times| times > 200), "{seen:?}");
}

/// A priority or an idle timer that is ticked 1 is told with the CONTR byte that keeps it, also where
/// another box is empty; one that is ticked 0, or empty, is not.
#[test]
fn boxes_that_do_not_last_are_told_with_the_byte_that_keeps_them() {
    let kept = |name, byte, what, them| {
        format!("{name}: connect with {byte}h, which keeps {what}; 05h clears {them}.")
    };
    let cases = [
        ([0, 0, 0, 0], vec![]),
        ([0, 0, 1, 0], vec![kept("Idle timer, controller 0", "25", "it", "it")]),
        ([0, 0, 0, 1], vec![kept("Idle timer, controller 1", "25", "it", "it")]),
        ([1, 0, 0, 0], vec![kept("Priority, controller 0", "85", "it", "it")]),
        (
            [1, 1, 1, 0],
            vec![
                kept("Priority and Idle timer, controller 0", "A5", "both", "them"),
                kept("Priority, controller 1", "85", "it", "it"),
            ],
        ),
    ];
    for ([p0, p1, i0, i1], expected) in cases {
        let mut board = sheet_of([0, 9, p0, p1, i0, i1]);
        assert_eq!(lasting(&told(&board, &BARE)), expected);
        board[1..3].fill(0);
        let text = told(&board, &BARE);
        assert!(text.contains("\nNot complete: 1 box is empty"));
        assert_eq!(lasting(&text), expected);
    }
    assert!(!told(&BARE, &BARE).contains("CONTR"));
}
