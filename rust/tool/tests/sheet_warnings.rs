//! What `gunwaleish sheet` warns of: waits of grade 2 and 3, with the box that would mend each.

use gunwaleish::{sheet_wait, Master, Part, Section, Sheet};
use gunwaleish_tool::commands::sheet::{sheet, Wanted};
use gunwaleish_tool::files::Input;
use gunwaleish_tool::sheet::warnings::{warnings, Warning};
use gunwaleish_tool::sheet::{BoxName, Pair, OPEN};
use model::rng::Rng;
use model::sheet::offset_of;
use model::sheets::good_pair;

/// A sheet that ticks every box: reserves, priorities and idle timers of controllers 0 and 1.
fn sheet_of(values: [u8; 6]) -> Vec<u8> {
    values.chunks(2).flat_map(|two| [2, 1, two[0], 1, two[1]]).collect()
}

/// What is to be warned of, and the lines of a pair's words that warn.
fn told(board: &[u8], house: &[u8]) -> (Vec<Warning>, Vec<String>) {
    let input = |name: &str, bytes: &[u8]| Input { name: name.to_string(), bytes: bytes.to_vec() };
    let made = sheet(&input("a.sheet", board), &input("b.sheet", house), Wanted::Words);
    let text = String::from_utf8(made.output.unwrap()).unwrap();
    let lines = text.lines().filter(|line| line.starts_with("Warning, "));
    let pair = Pair::read(board, house).unwrap();
    (warnings(&pair), lines.map(String::from).collect())
}

/// Each grade in words, the worst first, with the sheet on which the box to mend stands.
#[test]
fn grades_2_and_3_are_told_with_their_box() {
    let not_bounded = |waiting, holder, sheet| {
        format!(
            "Warning, grade 3: controller {waiting}'s wait is not bounded: controller {holder}'s reserve \
             is without limit and its idle timer off, which is the incident's own setting. To mend it, on \
             the {sheet} sheet: Downstream reserve, ms, controller {holder}: fill in 1 to 255."
        )
    };
    let (_, incident) = told(&sheet_of([0; 6]), &OPEN);
    assert_eq!(incident, [not_bounded(0, 1, "board"), not_bounded(1, 0, "board")]);
    let silent = "Warning, grade 2: controller 0's wait is bounded behind a silent controller 1 alone: \
                  controller 1's reserve is without limit, and its idle timer ends it on an idle bus \
                  only. To mend it, on the house sheet: Downstream reserve, ms, controller 1: fill in 1 \
                  to 255.";
    let (_, both) = told(&OPEN, &sheet_of([0, 0, 0, 1, 0, 1]));
    assert_eq!(both, [not_bounded(1, 0, "house"), silent.to_string()]);
    let (none, lines) = told(&sheet_of([1, 255, 0, 1, 0, 1]), &OPEN);
    assert!(none.is_empty() && lines.is_empty());
}

/// On any pair: a warning for each wait of grade 2 or 3 and no other, told in its own words; none if a box
/// is empty. With the box filled in as it says the wait is bounded.
#[test]
fn warnings_go_by_the_librarys_grades() {
    let mut rng = Rng::new(35);
    let mut seen = [0; 4];
    for _ in 0..2000 {
        let [mut board, mut house] = good_pair(&mut rng, 90);
        for at in [1, 3] {
            if rng.percent(50) {
                board[at + 1] = 0;
                house[at + 1] = 0;
            }
        }
        let (found, lines) = told(&board, &house);
        let spoken: Vec<String> = found.iter().map(|one| format!("Warning, {one}")).collect();
        assert_eq!(lines, spoken);
        assert!(found.is_sorted_by(|a, b| a.grade >= b.grade));
        for controller in Master::BOTH {
            let wait = Part::BOTH.map(|part| sheet_wait(&board, &house, controller, part).ok());
            let [first, second] = wait.map(|wait| wait.map_or(0, |wait| wait.grade()));
            assert_eq!(first, second);
            seen[usize::from(first)] += 1;
            let of: Vec<&Warning> = found.iter().filter(|w| w.controller == controller).collect();
            if first < 2 {
                assert!(of.is_empty());
                continue;
            }
            let [warning] = of[..] else { panic!("{found:?}") };
            assert_eq!(warning.grade, first);
            let fill = rng.between(1, 255) as u8;
            mended(warning, [&board, &house], fill);
        }
    }
    assert!(seen.iter().all(|&times| times > 200), "{seen:?}");
}

/// The pair with the box of a warning filled in where it stands: that wait is bounded then.
fn mended(warning: &Warning, pair: [&Vec<u8>; 2], fill: u8) {
    let BoxName { section, controller } = warning.mend;
    assert_eq!((section, controller), (Section::Reserve, warning.controller.partner()));
    let [mut board, mut house] = pair.map(Vec::clone);
    let on = match warning.sheet {
        Sheet::Board => &mut board,
        Sheet::House => &mut house,
    };
    let at = offset_of(section.number(), controller.number());
    assert_eq!(on[at..at + 2], [1, 0]);
    on[at + 1] = fill;
    let wait = sheet_wait(&board, &house, warning.controller, Part::Pca9641).unwrap();
    assert_eq!((wait.grade(), wait.ticks()), (1, Some(u16::from(fill) + 1)));
}
