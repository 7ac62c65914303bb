//! A shelf as a picture: a row a device, over the ticks that they share.

use gunwaleish::{Event, Master};

use super::lanes::{bands, bars};
use super::paper::{file_name, Look, Paper};
use super::places::{Moment, Places, FILE, LEFT};
use super::signs::Signs;
use super::{axis, ground, marks, Source, AXIS};
use crate::shelf::Shelved;
use crate::story::{Scene, Story};
use crate::svg::Drawing;
use crate::words::{count, ticks};

const LOOKS: [(Look, &str); 9] = [
    (Look::Boxes(&["waits"]), "asks and waits"),
    (Look::Boxes(&["open0", "open1"]), "owns, switch open"),
    (Look::Boxes(&["c0", "c1"]), "owns and is connected"),
    (Look::Boxes(&["initialising"]), "initialising"),
    (Look::Boxes(&["hung"]), "hung"),
    (Look::Cross, "event refused"),
    (Look::Boxes(&["apart"]), "events set apart, no time passes"),
    (Look::End, "end of the run"),
    (Look::Fold, "quiet ticks folded"),
];

/// The widest that an event is drawn, since it has no words here.
const EVENT: f64 = 6.0;
/// The height of a row, of a controller's bar in it, and of the line of a hung bus below them.
const ROW: f64 = 52.0;
const BAR: f64 = 16.0;
const BAND: f64 = 5.0;

/// The whole picture, as a file of SVG. The sources are the shelf file and the script.
pub fn draw(shelved: &Shelved, sources: &[Source; 2]) -> String {
    let moments = moments(shelved);
    let places = Places::new(&moments, 0..moments.len(), EVENT, FILE);
    let mut paper = Paper::new(places.strips() > 1);
    let [shelf, script] = sources.each_ref().map(|source| file_name(&source.name));
    let all = moments.iter().filter(|moment| moment.is_tick).count();
    paper.title(&format!(
        "{shelf}, {script}: {}, {}, {}",
        count(shelved.slots.len(), "device"),
        count(moments.len(), "event"),
        ticks(all)
    ));
    for strip in 0..places.strips() {
        draw_strip(&mut paper, shelved, &places, strip);
    }
    paper.legend(&LOOKS);
    paper.y += 6.0;
    paper.lines(
        "small",
        "In a row the upper bar is of controller 0, the lower one of controller 1.",
    );
    paper.foot(&sources.each_ref().map(|source| (file_name(&source.name), source.size)));
    paper.finish()
}

/// The moments of the whole script. A tick is quiet if nothing changes at any place.
fn moments(shelved: &Shelved) -> Vec<Moment> {
    let is_tick = |event: Event| event == Event::Tick;
    let mut moments: Vec<Moment> = shelved
        .answered
        .iter()
        .map(|(named, _)| Moment { is_tick: is_tick(named.event), quiet: is_tick(named.event) })
        .collect();
    for step in shelved.stories.iter().flat_map(|story| &story.steps) {
        moments[step.number - 1].quiet &= step.is_quiet_tick();
    }
    moments
}

fn draw_strip(paper: &mut Paper, shelved: &Shelved, places: &Places, strip: usize) {
    let height = ROW * shelved.slots.len() as f64;
    let top = paper.block(height + AXIS);
    let drawing = &mut paper.drawing;
    ground(drawing, places, strip, [top, height]);
    for (place, (slot, story)) in shelved.slots.iter().zip(&shelved.stories).enumerate() {
        let y = top + ROW * place as f64;
        drawing.line("paper-line", [LEFT, y], [places.right(strip), y]);
        drawing.text("lane", [14.0, y + 20.0], &format!("place {place}, {:02X}h", slot.address));
        drawing.text("small", [14.0, y + 34.0], slot.part.name());
        row(drawing, story, (places, strip), y + 5.0);
    }
    marks(drawing, places, (strip, true), [top, height]);
    let events = shelved.answered.iter().map(|(named, _)| named.event).zip(1..);
    let ticks = events.filter(|(event, _)| *event == Event::Tick).zip(1..);
    let ticks: Vec<(usize, usize)> = ticks.map(|((_, number), tick)| (number, tick)).collect();
    axis(drawing, places, strip, &ticks, top + height);
}

/// Both controllers at a device, what its bus does, and what was refused there.
fn row(drawing: &mut Drawing, story: &Story, (places, strip): (&Places, usize), y: f64) {
    for master in Master::BOTH {
        let y = y + f64::from(master.number()) * (BAR + 2.0);
        bars(drawing, story, (places, strip), master, [y, BAR]);
    }
    let below = y + 2.0 * (BAR + 2.0);
    let on = (places, strip);
    for (class, of) in [
        ("initialising", (|scene| scene.initialising) as fn(&Scene) -> bool),
        ("hung", |scene| scene.hung),
    ] {
        bands(drawing, story, on, (class, class), [below, BAND], of);
    }
    let mut crosses = Signs::default();
    for step in story.steps.iter().filter(|step| step.answer.outcome.is_refused()) {
        let (here, x) = places.point(places.at[step.number - 1]);
        if here == strip {
            crosses.at(x).map(|shapes| shapes.cross([x, below + 2.0], 3.5));
        }
    }
    drawing.joined("cross", &crosses.shapes, "");
}
