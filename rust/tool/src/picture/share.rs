//! The bus share as a picture: bars a controller, of all ticks.

use gunwaleish::{Master, Totals};

use super::paper::{Look, Paper};
use super::places::LEFT;
use crate::share::kept::REFUSALS;
use crate::share::words::per_cent;
use crate::svg::Joined;
use crate::version::TOOL;
use crate::words::{count, ticks};

const LOOKS: [(Look, &str); 4] = [
    (Look::Boxes(&["c0", "c1"]), "owned the bus and was connected"),
    (Look::Boxes(&["open0", "open1"]), "owned it, switch open"),
    (Look::Boxes(&["waits"]), "waited for it"),
    (Look::Boxes(&["nobody"]), "nobody owned it"),
];

/// A bar of all ticks.
const WHOLE: f64 = 880.0;
const BAR: f64 = 30.0;
const ROW: f64 = 62.0;
const LETTER: f64 = 6.6;

/// The whole picture, as a file of SVG. `of` says what was counted.
pub fn draw(totals: &Totals, of: &str) -> String {
    let refused: u64 = REFUSALS.map(|number| totals.refused(number)).iter().sum();
    let mut paper = Paper::new(false);
    paper.title(&format!(
        "{of}: {}, {refused} refused, {}",
        count(totals.traces() as usize, "trace"),
        ticks(totals.ticks() as usize)
    ));
    for master in Master::BOTH {
        let m = master as usize;
        let (owned, connected) = (totals.owned(master), totals.connected(master));
        let parts = [
            (["c0", "c1"][m], connected, "owned, connected"),
            (["open0", "open1"][m], owned - connected.min(owned), "owned, switch open"),
            ("waits", totals.waited(master), "waited"),
        ];
        row(&mut paper, totals, &format!("controller {master}"), &parts);
        let y = paper.y - 18.0;
        paper.drawing.text("small", [LEFT, y], &figures(totals, master));
    }
    row(&mut paper, totals, "nobody", &[("nobody", totals.unowned(), "owned by nobody")]);
    scale(&mut paper);
    paper.legend(&LOOKS);
    let counted = "A tick counts by the state after it (docs/SHARE.md). A controller does not wait while it \
                   owns the bus, so a bar has a part for each; in the rest of it the controller does neither.";
    paper.lines("small", counted);
    paper.lines("small", &format!("{of}; {TOOL}"));
    paper.y += 8.0;
    paper.finish()
}

/// The figures of a controller, as some parts of its bar are too short for words.
fn figures(totals: &Totals, master: Master) -> String {
    let share = |name: &str, part: u64| {
        format!("{name} {}, {}; ", ticks(part as usize), per_cent(part, totals.ticks()))
    };
    let [owned, connected, waited] = [
        share("owned", totals.owned(master)),
        share("connected", totals.connected(master)),
        share("waited", totals.waited(master)),
    ];
    format!("{owned}{connected}{waited}longest wait {}", ticks(totals.longest(master) as usize))
}

/// A bar with its parts one behind the other.
fn row(paper: &mut Paper, totals: &Totals, name: &str, parts: &[(&str, u64, &str)]) {
    let top = paper.block(ROW);
    let drawing = &mut paper.drawing;
    drawing.text("lane", [14.0, top + 20.0], name);
    drawing.rect("ground", [LEFT, top, WHOLE, BAR], "");
    let all = totals.ticks().max(1) as f64;
    let mut x = LEFT;
    for &(class, part, words) in parts {
        let width = WHOLE * part as f64 / all;
        let said = format!("{words} {part}, {}", per_cent(part, totals.ticks()));
        if part > 0 {
            drawing.rect(class, [x, top, width, BAR], &said);
        }
        if width > LETTER * said.len() as f64 + 12.0 {
            let look = if class.starts_with('c') { "onbar" } else { "onlight" };
            drawing.text(look, [x + 6.0, top + 19.0], &said);
        }
        x += width;
    }
}

fn scale(paper: &mut Paper) {
    let y = paper.block(26.0);
    let mut lines = Joined::default();
    lines.line(&[[LEFT, y], [LEFT + WHOLE, y]]);
    for tenth in 0..=10 {
        let x = LEFT + WHOLE * f64::from(tenth) / 10.0;
        lines.line(&[[x, y], [x, y + 5.0]]);
        paper.drawing.text("middle", [x, y + 16.0], &format!("{} %", 10 * tenth));
    }
    paper.drawing.joined("axis", &lines, "");
}
