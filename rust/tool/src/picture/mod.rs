//! Pictures: a run as a timeline (here), a shelf with a row a device (`shelf`), and the bus share as bars
//! (`share`). `paper` is what they are drawn on, `places` where a step stands from left to right, and
//! `lanes` what each controller and the bus do.

mod lanes;
mod paper;
mod places;
pub mod share;
pub mod shelf;
mod signs;

use std::ops::Range;

use gunwaleish::{Event, Master};

use crate::story::Story;
use crate::svg::{Drawing, Joined};
use crate::{summary, words};
use lanes::Lane;
pub use paper::style_in_page;
use paper::{file_name, Look, Paper};
use places::{Moment, Places, FILE, LEFT, PAGE};

/// What the signs of a run mean.
const LOOKS: [(Look, &str); 13] = [
    (Look::Boxes(&["waits"]), "asks and waits"),
    (Look::Boxes(&["open0", "open1"]), "owns, switch open"),
    (Look::Boxes(&["c0", "c1"]), "owns and is connected"),
    (Look::Boxes(&["int"]), "interrupt output asserted"),
    (Look::Boxes(&["low"]), "line low"),
    (Look::Boxes(&["initialising"]), "initialising"),
    (Look::Boxes(&["hung"]), "hung"),
    (Look::Boxes(&["apart"]), "events set apart, no time passes"),
    (Look::Cross, "event refused"),
    (Look::Red, "refused or not acknowledged"),
    (Look::Dropped, "byte dropped: mailbox full"),
    (Look::End, "end of the run"),
    (Look::Fold, "quiet ticks folded"),
];

/// The widest that an event is drawn, so that its words fit.
const WORDS: f64 = 15.0;
/// Folded ticks that are at least so wide have room for their number.
const NUMBERED: f64 = 32.0;
/// The height of the ticks below the lanes.
const AXIS: f64 = 38.0;

/// A file that a picture is made of.
pub struct Source {
    pub name: String,
    /// Its bytes.
    pub size: usize,
}

/// Where the steps of a strip stand in a picture, in its units.
pub struct Spot {
    /// The number of the first event, from 1. The others follow it.
    pub from: usize,
    /// The top and the foot of the strip.
    pub reach: [f64; 2],
    /// Of each event.
    pub x: Vec<f64>,
}

/// Where the steps of a run stand in a picture, strip by strip; one that is not shown stands nowhere.
pub type Spots = Vec<Spot>;

/// The picture of a run, or of these steps of it, as a file of SVG, and where the steps stand in it.
pub fn draw(story: &Story, source: &Source, shown: Range<usize>) -> (String, Spots) {
    let lines = summary::in_words(story);
    let (totals, verdicts) = lines.split_at(lines.len().min(2));
    let places = Places::new(&Moment::all(story), shown, WORDS, FILE);
    let mut paper = Paper::new(places.strips() > 1);
    paper.title(&title(story, file_name(&source.name), &places));
    verdicts.iter().for_each(|verdict| paper.lines("verdict", verdict));
    let spots = draw_strips(&mut paper, story, &places);
    paper.legend(&LOOKS);
    paper.y += 6.0;
    totals.iter().for_each(|line| paper.lines("line", line));
    paper.lines("small", summary::HOW_COUNTED);
    paper.foot(&[(file_name(&source.name), source.size)]);
    (paper.finish(), spots)
}

/// The lanes, the ticks and what the signs mean, for a page of HTML that says the rest. `label` tells the
/// picture to those who do not see it.
pub fn draw_in_page(story: &Story, label: &str) -> String {
    drawn_in_page(story, label).0
}

/// The same, and where the steps stand in it.
pub fn drawn_in_page(story: &Story, label: &str) -> (String, Spots) {
    let places = Places::new(&Moment::all(story), 0..story.steps.len(), WORDS, PAGE);
    let mut paper = Paper::in_page();
    let spots = draw_strips(&mut paper, story, &places);
    paper.legend(&LOOKS);
    (paper.finish_in_page(label), spots)
}

fn title(story: &Story, file: &str, places: &Places) -> String {
    let events = words::count(story.steps.len(), "event");
    let ticks = words::ticks(story.ticks());
    let (part, address) = (story.part, story.address);
    let all = places.shown == (0..story.steps.len());
    let shown = match (all, &story.steps[places.shown.clone()]) {
        (false, [first, .., last]) => format!("; from tick {} to {}", first.tick, last.tick),
        (false, [one]) => format!("; at tick {}", one.tick),
        _ => String::new(),
    };
    format!("{file}: {part} at address {address:02X}h, {events}, {ticks}{shown}")
}

/// All strips below each other.
fn draw_strips(paper: &mut Paper, story: &Story, places: &Places) -> Spots {
    let lanes = [Lane::Controller(Master::Zero), Lane::Controller(Master::One), Lane::Bus];
    let heads = lanes.map(|lane| (lane, lane.head(story, places)));
    let spot = |strip| {
        let [top, height] = draw_strip(paper, story, (places, strip), heads);
        let on_strip = places.on_strip(strip);
        let x = places.at[on_strip.clone()].iter().map(|at| places.point(*at).1).collect();
        Spot { from: on_strip.start + 1, reach: [top, top + height], x }
    };
    (0..places.strips()).map(spot).collect()
}

/// One strip, with the room for words above each lane. Gives its top and the height of its lanes.
fn draw_strip(
    paper: &mut Paper,
    story: &Story,
    (places, strip): (&Places, usize),
    lanes: [(Lane, f64); 3],
) -> [f64; 2] {
    let height = lanes.iter().map(|(lane, head)| head + lane.body()).sum::<f64>();
    let top = paper.block(height + AXIS);
    let drawing = &mut paper.drawing;
    ground(drawing, places, strip, [top, height]);
    let mut y = top;
    for (lane, head) in lanes {
        drawing.line("paper-line", [LEFT, y], [places.right(strip), y]);
        lane.draw(drawing, story, (places, strip), [y, head]);
        y += head + lane.body();
    }
    let ends = places.shown.end == story.steps.len();
    marks(drawing, places, (strip, ends), [top, height]);
    let ticks = story.steps.iter().filter(|step| step.event == Event::Tick);
    let ticks: Vec<(usize, usize)> = ticks.map(|step| (step.number, step.tick)).collect();
    axis(drawing, places, strip, &ticks, y);
    [top, height]
}

/// The ground of a strip, and on it the events that take no time.
fn ground(drawing: &mut Drawing, places: &Places, strip: usize, [top, height]: [f64; 2]) {
    drawing.rect("ground", [LEFT, top, places.right(strip) - LEFT, height], "");
    let mut apart = Joined::default();
    for stretch in &places.apart {
        for piece in places.pieces(*stretch).iter().filter(|piece| piece.strip == strip) {
            apart.rect([piece.x, top, piece.width, height]);
        }
    }
    drawing.joined("apart", &apart, "");
}

/// Ticks that are folded, and the end of the run.
fn marks(
    drawing: &mut Drawing,
    places: &Places,
    (strip, ends): (usize, bool),
    [top, height]: [f64; 2],
) {
    let mut folds = Joined::default();
    for (stretch, ticks) in &places.folded {
        for piece in places.pieces(*stretch).iter().filter(|piece| piece.strip == strip) {
            for x in [piece.x, piece.x + piece.width] {
                folds.line(&[[x, top], [x, top + height]]);
            }
            if piece.width >= NUMBERED {
                let place = [piece.x + piece.width / 2.0, top + height + 31.0];
                drawing.text("middle", place, &format!("{ticks} folded"));
            }
        }
    }
    drawing.joined("fold", &folds, "");
    if ends && strip + 1 == places.strips() {
        let x = places.right(strip);
        drawing.line("end", [x, top], [x, top + height + 20.0]);
        drawing.text("middle", [x, top + height + 31.0], "end");
    }
}

/// The ticks below a strip. `ticks` has the number of each TICK's event and that of the tick.
fn axis(drawing: &mut Drawing, places: &Places, strip: usize, ticks: &[(usize, usize)], y: f64) {
    let mut lines = Joined::default();
    lines.line(&[[LEFT, y], [places.right(strip), y]]);
    drawing.text("lane", [14.0, y + 16.0], "ticks (ms)");
    let Some(first) = places.first_tick else {
        drawing.text("small", [LEFT, y + 16.0], "no tick: all of it takes no time");
        return drawing.joined("axis", &lines, "");
    };
    let shown = ticks.iter().filter(|(number, _)| places.shown.contains(&(number - 1)));
    let shown: Vec<(f64, usize)> =
        shown.map(|&(number, tick)| (places.at[number - 1], tick)).collect();
    // A dozen labels at the most, at round numbers, where nothing is folded.
    let steps = [1, 2, 5, 10, 20, 50, 100, 200, 500];
    let few = |step: &usize| shown.len() / step <= 12;
    let every = if places.folded.is_empty() { steps.into_iter().find(few) } else { Some(1) };
    let every = every.unwrap_or(500);
    let before = shown.first().map(|&(_, tick)| (first, tick - 1));
    let mut last = f64::MIN;
    for (place, tick) in before.into_iter().chain(shown) {
        let (here, x) = places.point(place);
        let apart = x - last >= 30.0;
        if here == strip && tick % every == 0 && apart && !is_inside_a_fold(places, place) {
            lines.line(&[[x, y], [x, y + 5.0]]);
            drawing.text("middle", [x, y + 16.0], &tick.to_string());
            last = x;
        }
    }
    drawing.joined("axis", &lines, "");
}

fn is_inside_a_fold(places: &Places, place: f64) -> bool {
    places.folded.iter().any(|([from, to], _)| *from < place && place < to - 0.001)
}
