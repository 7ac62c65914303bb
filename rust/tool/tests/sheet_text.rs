//! The text form of an order sheet: text and sheet give each other back, over every sheet.
//! `sheet_typing` has what is refused.

use std::collections::BTreeSet;

use gunwaleish_tool::commands::fill::fill;
use gunwaleish_tool::commands::sheet::one;
use gunwaleish_tool::files::Input;
use gunwaleish_tool::form::{boxes_of, read, sheet_of, write, Boxes};
use gunwaleish_tool::sheet::BoxName;
use model::rng::Rng;
use model::sheet::judge;

/// What a box can have: nothing, a reserve of 0 to 255, another value of 0 or 1.
fn values(place: usize) -> Vec<Option<u8>> {
    let most = if place < 2 { 255 } else { 1 };
    [None].into_iter().chain((0..=most).map(Some)).collect()
}

/// The bytes of a box, with the count before the first of its section.
fn bytes_of(place: usize, value: Option<u8>) -> Vec<u8> {
    let count = if place.is_multiple_of(2) { &[2][..] } else { &[] };
    [count, &[value.is_some().into(), value.unwrap_or(0)]].concat()
}

/// Both ways, as the two commands have it: the sheet, which the model takes for one, gives the text, and
/// the text the sheet.
fn both_ways(boxes: Boxes) {
    let sheet: Vec<u8> = (0..6).flat_map(|place| bytes_of(place, boxes[place])).collect();
    assert_eq!(judge(&sheet), Ok(()));
    assert_eq!((boxes_of(&sheet), &sheet_of(boxes)[..]), (Ok(boxes), &sheet[..]));
    let input = |bytes: &[u8]| Input { name: String::new(), bytes: bytes.to_vec() };
    let text = one(&input(&sheet)).output.unwrap();
    assert_eq!(text, write(boxes).as_bytes());
    assert_eq!(read(&text), Ok(boxes));
    let made = fill(&input(&text));
    assert_eq!((made.output, made.refused), (Some(sheet), None));
}

/// There are 257 * 257 * 3 * 3 * 3 * 3 = 5,349,969 sheets. A text has one line for each box, which goes by
/// that box alone, as the next test shows, and is read by itself: so every value of every box in turn is
/// all that there is to write and to read. Besides these, here are every two reserves, while the other
/// boxes take turns; and all values of the other four, so all 64 patterns of ticks, beside reserves with
/// any number of digits.
#[test]
fn every_sheet_comes_back_from_its_text() {
    for place in 0..6 {
        for value in values(place) {
            let mut boxes: Boxes = [Some(50), None, Some(1), None, Some(0), Some(1)];
            boxes[place] = value;
            both_ways(boxes);
        }
    }
    let flags = |n: usize| [1, 3, 9, 27].map(|by| values(2)[n / by % 3]);
    for (n, first) in values(0).into_iter().enumerate() {
        for (m, second) in values(1).into_iter().enumerate() {
            let [a, b, c, d] = flags(257 * n + m);
            both_ways([first, second, a, b, c, d]);
        }
    }
    let ends = [None, Some(0), Some(1), Some(9), Some(10), Some(99), Some(100), Some(255)];
    let mut patterns = BTreeSet::new();
    for [a, b, c, d] in (0..81).map(flags) {
        for (first, second) in ends.into_iter().flat_map(|one| ends.map(|two| (one, two))) {
            let boxes = [first, second, a, b, c, d];
            both_ways(boxes);
            patterns.insert(boxes.map(|value| value.is_some()));
        }
    }
    assert_eq!(patterns.len(), 64);
}

/// A line goes by its own box, whatever the others have, and no two values of a box have the same. The
/// comments are always the same.
#[test]
fn each_line_goes_by_its_own_box() {
    let mut rng = Rng::new(14);
    let comments = apart(write(Boxes::default())).1;
    assert_eq!(comments.len(), 8, "{comments:?}");
    for (place, name) in BoxName::all().enumerate() {
        let mut lines = BTreeSet::new();
        for value in values(place) {
            let of_value: BTreeSet<String> = (0..8)
                .map(|_| {
                    let mut boxes: Boxes = std::array::from_fn(|other| rng.pick(&values(other)));
                    boxes[place] = value;
                    let (boxes, others) = apart(write(boxes));
                    assert_eq!((boxes.len(), &others), (6, &comments));
                    boxes[place].clone()
                })
                .collect();
            assert_eq!(of_value.len(), 1, "{of_value:?}");
            assert!(of_value.iter().all(|line| line.starts_with(&format!("{name}: "))));
            assert!(of_value.is_disjoint(&lines));
            lines.extend(of_value);
        }
    }
}

/// The lines of the boxes, and the others.
fn apart(text: String) -> (Vec<String>, Vec<String>) {
    let is_box = |line: &String| !line.is_empty() && !line.starts_with('#');
    text.lines().map(String::from).partition(is_box)
}

const TEXT: &str = "\
Downstream reserve, ms, controller 0: 50
Downstream reserve, ms, controller 1: without limit
Priority, controller 0: 0
Priority, controller 1: empty
Idle timer, controller 0: empty
Idle timer, controller 1: 1
";
const BOXES: Boxes = [Some(50), Some(0), Some(0), None, None, Some(1)];

/// The text, and what people make of one: other line ends, comments, blank lines, another order, letters
/// of another case, more spaces.
#[test]
fn a_text_may_be_written_so() {
    assert_eq!(read(TEXT.as_bytes()), Ok(BOXES));
    assert_eq!(apart(write(BOXES)).0, TEXT.lines().collect::<Vec<_>>());
    let mut turned: Vec<&str> = TEXT.lines().collect();
    turned.reverse();
    let forms = [
        TEXT.replace('\n', "\r\n"),
        format!("\u{FEFF}{TEXT}"),
        TEXT.trim_end().to_string(),
        TEXT.replace('\n', "   # a comment: 0\n"),
        TEXT.replace('\n', "#\n\n \t\n# Priority, controller 0: 1, über alles\n"),
        turned.join("\n"),
        TEXT.to_uppercase(),
        TEXT.to_lowercase(),
        TEXT.replace(' ', "  ").replace(':', "\t:\t"),
        TEXT.replace(": ", ":"),
        TEXT.replace(' ', "\u{A0}"),
    ];
    for form in forms {
        assert_eq!(read(form.as_bytes()), Ok(BOXES), "{form}");
    }
}

/// A text with a letter changed, added or taken away: it is refused, or one box at the most is another, and
/// no reserve becomes 0, nor any box empty.
#[test]
fn a_slip_makes_no_0_and_empties_no_box() {
    let mut rng = Rng::new(1935);
    let mut seen = [0; 3];
    for _ in 0..20_000 {
        let boxes: Boxes = std::array::from_fn(|place| rng.pick(&values(place)));
        let mut bytes: Vec<u8> = write(boxes).into();
        let at = rng.below(bytes.len() as u64) as usize;
        let letter = rng.pick(b"0123456789 :#,xhe\r\n\tEmpty");
        match rng.below(3) {
            0 => bytes[at] = letter,
            1 => bytes.insert(at, letter),
            _ => drop(bytes.remove(at)),
        }
        let Ok(found) = read(&bytes) else {
            seen[0] += 1;
            continue;
        };
        let others: Vec<usize> = (0..6).filter(|&place| found[place] != boxes[place]).collect();
        seen[1 + others.len()] += 1;
        for place in others {
            let least = if place < 2 { 1 } else { 0 };
            assert!(found[place].is_some_and(|value| value >= least), "{boxes:?} {found:?}");
        }
    }
    assert!(seen.iter().all(|&times| times > 50), "{seen:?}");
}
