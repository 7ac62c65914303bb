//! The arrows in the picture of the house: up from floor to floor, and through doors between groups that stand on each other.

use crate::flows::Flows;
use crate::plan::{Placed, EDGE, WIDTH};
use crate::svg::text;

/// The most letters that an arrow tells in names, up and through a door; of more it tells how many crates there are.
const UP: usize = 30;
const THROUGH: usize = 15;
/// From a corner of a box to an arrow that does not go straight up.
const CORNER: f64 = 28.0;
/// Below a floor, for an arrow that goes past a box.
const PAST: f64 = 14.0;
/// The words of an arrow, which stay legible where a line crosses them.
const WORDS: &str = " font-size=\"11\" stroke=\"white\" stroke-width=\"4\" paint-order=\"stroke\"";

/// An arrow for each flow that does not follow from others, and its words above all lines.
pub fn arrows(flows: &Flows, boxes: &[Placed]) -> String {
    let (mut lines, mut words) = (String::new(), String::new());
    for (from, to) in flows.arrows() {
        let place = |group: usize| boxes.iter().find(|one| one.group == group);
        let (Some(from), Some(to)) = (place(from), place(to)) else { continue };
        let names = flows.carried(from.group, to.group);
        let (line, word) = if from.top > to.top {
            up(from, to, &told(names, UP))
        } else if boxes.iter().any(|one| lies_between(one, from, to)) {
            past(from, to, &told(names, UP))
        } else {
            through(from, to, &told(names, THROUGH))
        };
        lines += &line;
        words += &word;
    }
    lines + &words
}

/// True of a box on the floor of two others, between these.
fn lies_between(one: &Placed, from: &Placed, to: &Placed) -> bool {
    let (left, right) = (from.middle().min(to.middle()), from.middle().max(to.middle()));
    one.top == from.top && left < one.middle() && one.middle() < right
}

/// The crates that an arrow carries, or how many they are.
fn told(names: &[String], most: usize) -> String {
    let all = names.join(", ");
    if all.len() <= most {
        all
    } else {
        format!("{} crates", names.len())
    }
}

/// Straight up where the two boxes lie above each other, and else from corner to corner, with the words on the free side.
fn up(from: &Placed, to: &Placed, words: &str) -> (String, String) {
    let (left, right) = (from.left.max(to.left), from.right().min(to.right()));
    let shared = right - left;
    let (start, end) = if shared >= 2.0 * EDGE {
        (left + shared / 2.0, left + shared / 2.0)
    } else if from.left < to.left {
        (from.right() - CORNER, to.left + inside(shared))
    } else {
        (from.left + CORNER, to.right() - inside(shared))
    };
    let line = arrow(&[(start, from.top), (end, to.below())]);
    let (x, y) = (start + (end - start) / 4.0, from.top + (to.below() - from.top) / 4.0);
    let word = if start < end {
        text(x - 5.0, y, &format!(" text-anchor=\"end\"{WORDS}"), words)
    } else {
        text(x + 6.0, y, WORDS, words)
    };
    (line, word)
}

/// How far inside a box an arrow ends that comes from so far beside it: the farther the less, so that two do not meet.
fn inside(shared: f64) -> f64 {
    CORNER * (2.0 + shared.max(-WIDTH) / WIDTH * 3.0).max(0.5)
}

/// Through the door between two neighbours: to the right above, to the left below.
fn through(from: &Placed, to: &Placed, words: &str) -> (String, String) {
    let to_right = from.left < to.left;
    let (start, end) = if to_right { (from.right(), to.left) } else { (from.left, to.right()) };
    let y = from.top + from.height * if to_right { 0.4 } else { 0.8 };
    let style = format!(" text-anchor=\"middle\"{WORDS}");
    (arrow(&[(start, y), (end, y)]), text((start + end) / 2.0, y - 5.0, &style, words))
}

/// Below the floor, past the boxes between the two.
fn past(from: &Placed, to: &Placed, words: &str) -> (String, String) {
    let inward = if from.left < to.left { 1.0 } else { -1.0 };
    let (start, end) = (from.middle() + inward * CORNER, to.middle() - inward * CORNER);
    let y = from.below() + PAST;
    let line = arrow(&[(start, from.below()), (start, y), (end, y), (end, to.below())]);
    let style = format!(" text-anchor=\"middle\"{WORDS}");
    (line, text(start + inward * 2.0 * CORNER, y + 4.0, &style, words))
}

/// A line through these points, with a head at its end.
fn arrow(points: &[(f64, f64)]) -> String {
    let [.., (x0, y0), (x1, y1)] = *points else { return String::new() };
    let long = (x1 - x0).hypot(y1 - y0);
    let (along, up) = (8.0 * (x1 - x0) / long, 8.0 * (y1 - y0) / long);
    let (x, y) = (x1 - along, y1 - up);
    let mut line = String::from("<path fill=\"none\" stroke=\"black\" d=\"M");
    for (x, y) in &points[..points.len() - 1] {
        line += &format!("{x:.1} {y:.1} L");
    }
    line += &format!("{x:.1} {y:.1}\"/>\n");
    let (side, rise) = (up / 2.0, along / 2.0);
    let (a, b, c, d) = (x - side, y + rise, x + side, y - rise);
    line + &format!("<path d=\"M{x1:.1} {y1:.1} L{a:.1} {b:.1} L{c:.1} {d:.1} Z\"/>\n")
}
