//! The lanes: what each controller does and has, and what the bus does.

use gunwaleish::{Event, Master, Outcome};

use super::places::{stretches, Piece, Places, LEFT};
use super::signs::Signs;
use crate::story::{Scene, Step, Story};
use crate::svg::{Drawing, Joined};
use crate::words;

const BAR: f64 = 24.0;
const INT: f64 = 5.0;
const LEVEL: f64 = 12.0;
const BAND: f64 = 14.0;
/// The width of a letter of an event's words, and of a bar's.
const LETTER: f64 = 6.9;
const BAR_LETTER: f64 = 6.4;

#[derive(Clone, Copy)]
pub enum Lane {
    Controller(Master),
    Bus,
}

impl Lane {
    /// True if this lane shows the event. Both controllers show a PAIR, and ticks are below.
    fn shows(self, event: Event) -> bool {
        match event {
            Event::Command { master, .. }
            | Event::Write { master, .. }
            | Event::Read { master }
            | Event::Stop { master }
            | Event::GeneralCall { master, .. } => {
                matches!(self, Lane::Controller(m) if m == master)
            }
            Event::Pair { .. } => matches!(self, Lane::Controller(_)),
            Event::Tick => false,
            _ => matches!(self, Lane::Bus),
        }
    }

    /// The room above for the words of the events.
    pub fn head(self, story: &Story, places: &Places) -> f64 {
        let shown = story.steps[places.shown.clone()].iter();
        let own = shown.filter(|step| places.wordy && self.shows(step.event));
        let longest = own.map(|step| self.short(step).len()).max().unwrap_or(0);
        22.0 + LETTER * longest as f64
    }

    /// Its height below a head.
    pub fn body(self) -> f64 {
        match self {
            Lane::Controller(_) => BAR + INT + 12.0,
            Lane::Bus => 2.0 * (LEVEL + 8.0) + 2.0 * (BAND + 2.0) + 8.0,
        }
    }

    pub fn draw(self, drawing: &mut Drawing, story: &Story, on: Strip, [top, head]: [f64; 2]) {
        let y = top + head;
        self.events(drawing, story, on, y - 6.0);
        match self {
            Lane::Controller(master) => controller(drawing, story, on, master, y),
            Lane::Bus => bus(drawing, story, on, y),
        }
    }

    /// A mark for each event, with its words if there is room, a cross if it is refused, and a triangle if
    /// its byte is dropped.
    fn events(self, drawing: &mut Drawing, story: &Story, (places, strip): Strip, y: f64) {
        let (mut marks, mut crosses, mut drops) =
            (Joined::default(), Signs::default(), Signs::default());
        for step in story.steps[places.on_strip(strip)].iter().filter(|step| self.shows(step.event))
        {
            let (_, x) = places.point(places.at[step.number - 1]);
            if places.marked {
                marks.line(&[[x, y - 4.0], [x, y + 4.0]]);
            }
            if places.wordy {
                let done = step.answer.outcome == Outcome::Done;
                let look = if done { "event" } else { "bad" };
                drawing.upward_text(look, [x + 3.5, y - 7.0], &self.short(step), &tip(step));
            }
            if step.answer.outcome.is_refused() {
                crosses.at(x).map(|shapes| shapes.cross([x, y], 3.5));
            }
            if self.drops(step) {
                drops.at(x).map(|shapes| shapes.triangle([x, y], 4.0));
            }
        }
        drawing.joined("axis", &marks, "");
        drawing.joined("cross", &crosses.shapes, "");
        drawing.joined("dropped", &drops.shapes, "");
    }

    /// True if a byte of this lane's controller is dropped.
    fn drops(self, step: &Step) -> bool {
        matches!(self, Lane::Controller(m) if step.dropped[m as usize])
    }

    /// An event in a few letters.
    fn short(self, step: &Step) -> String {
        let dropped = if self.drops(step) { ", dropped" } else { "" };
        format!("{}{dropped}", short(step))
    }
}

/// The places, and the strip that is drawn.
pub type Strip<'a> = (&'a Places, usize);

/// What a bar shows of a controller.
#[derive(Clone, Copy, PartialEq)]
enum Has {
    Bus,
    OpenSwitch,
    Wait,
}

impl Has {
    const ALL: [Has; 3] = [Has::Bus, Has::OpenSwitch, Has::Wait];

    fn of(scene: &Scene, master: Master) -> Option<Has> {
        match (scene.owner == Some(master), scene.connected == Some(master)) {
            (true, true) => Some(Has::Bus),
            (true, false) => Some(Has::OpenSwitch),
            _ => scene.waits[master as usize].then_some(Has::Wait),
        }
    }

    fn class(self, master: Master) -> &'static str {
        match self {
            Has::Bus => ["c0", "c1"][master as usize],
            Has::OpenSwitch => ["open0", "open1"][master as usize],
            Has::Wait => "waits",
        }
    }

    /// In words, and in one.
    fn words(self) -> [&'static str; 2] {
        match self {
            Has::Bus => ["owns, connected", "owns"],
            Has::OpenSwitch => ["owns, switch open", "owns"],
            Has::Wait => ["waits", "waits"],
        }
    }

    /// What a bar says: all of it, and shorter if there is no room.
    fn bar_words(self, from: usize, to: usize) -> [String; 4] {
        let [long, short] = self.words();
        let (when, briefly) = match from == to {
            true => (String::new(), String::new()),
            false => (format!(", tick {from} to {to}"), format!(" {from} to {to}")),
        };
        let [all, shorter] = [long, short].map(|words| format!("{words}{when}"));
        [all, shorter, format!("{short}{briefly}"), short.to_string()]
    }
}

fn controller(drawing: &mut Drawing, story: &Story, on: Strip, master: Master, y: f64) {
    let m = master as usize;
    drawing.text("lane", [14.0, y + 16.0], &format!("controller {m}"));
    bars(drawing, story, on, master, [y, BAR]);
    drawing.text("small", [14.0, y + BAR + 12.0], &format!("INT{m}"));
    let band = [y + BAR + 5.0, INT];
    bands(drawing, story, on, ("int", &format!("INT{m} asserted")), band, |s| s.asserted[m]);
}

/// A bar wherever a controller owns the bus or waits for it, at this y and of this height. Bars that are too narrow to be
/// pointed at are joined by what they show.
pub fn bars(
    drawing: &mut Drawing,
    story: &Story,
    (places, strip): Strip,
    master: Master,
    [y, height]: [f64; 2],
) {
    let mut narrow = Has::ALL.map(|_| Joined::default());
    for (has, from, to) in stretches(story, |scene| Has::of(scene, master)) {
        let Some(has) = has else { continue };
        for piece in places.span(story, from, to).iter().filter(|piece| piece.strip == strip) {
            let place = [piece.x, y, piece.width, height];
            if piece.width < places.pointed {
                narrow[has as usize].rect(place);
                continue;
            }
            let said = has.bar_words(story.tick_at(from), story.tick_at(to));
            drawing.rect(has.class(master), place, &format!("controller {master}: {}", said[0]));
            let fits = |words: &&String| piece.width > BAR_LETTER * words.len() as f64 + 10.0;
            if let Some(words) = said.iter().find(fits) {
                let look = if has == Has::Bus { "onbar" } else { "onlight" };
                drawing.text(look, [piece.x + 6.0, y + height / 2.0 + 4.0], words);
            }
        }
    }
    for (has, bars) in Has::ALL.into_iter().zip(&narrow) {
        let said = format!("controller {master}: {}", has.words()[0]);
        drawing.joined(has.class(master), bars, &said);
    }
}

fn bus(drawing: &mut Drawing, story: &Story, on: Strip, y: f64) {
    drawing.text("lane", [14.0, y - 4.0], "bus");
    level(drawing, story, on, "SCL", y + 4.0, |scene| scene.scl);
    level(drawing, story, on, "SDA", y + 4.0 + LEVEL + 8.0, |scene| scene.sda);
    let below = y + 4.0 + 2.0 * (LEVEL + 8.0);
    let (one, two) = ([below, BAND], [below + BAND + 2.0, BAND]);
    bands(drawing, story, on, ("initialising", "initialising"), one, |s| s.initialising);
    bands(drawing, story, on, ("hung", "hung"), two, |scene| scene.hung);
}

fn level(
    drawing: &mut Drawing,
    story: &Story,
    (places, strip): Strip,
    name: &str,
    y: f64,
    of: fn(&Scene) -> bool,
) {
    drawing.text("small", [14.0, y + LEVEL - 1.0], name);
    let height = |high: bool| if high { y } else { y + LEVEL };
    let (mut points, mut low): (Vec<[f64; 2]>, _) = (vec![], Joined::default());
    // Before the first event both lines are high.
    let mut was = true;
    for (high, from, to) in stretches(story, of) {
        for piece in places.span(story, from, to).iter().filter(|piece| piece.strip == strip) {
            if !high {
                low.rect([piece.x, y, piece.width, LEVEL]);
            }
            if points.is_empty() {
                was = if piece.x > LEFT { was } else { high };
                points.push([LEFT, height(was)]);
            }
            let end = piece.x + piece.width;
            points.extend([[piece.x, height(was)], [piece.x, height(high)], [end, height(high)]]);
            was = high;
        }
    }
    drawing.joined("low", &low, &format!("{name} low"));
    drawing.joined("wave", Joined::default().line(&points), "");
}

/// A band wherever something is so, with its name on it if there is room. `look` is its class and
/// its name, `[y, height]` its place.
pub fn bands(
    drawing: &mut Drawing,
    story: &Story,
    (places, strip): Strip,
    (class, name): (&str, &str),
    [y, height]: [f64; 2],
    of: impl Fn(&Scene) -> bool,
) {
    let there = stretches(story, of).into_iter().filter(|(there, _, _)| *there);
    let pieces = there.flat_map(|(_, from, to)| places.span(story, from, to));
    let pieces: Vec<Piece> = pieces.filter(|piece| piece.strip == strip).collect();
    let mut bands = Joined::default();
    pieces.iter().for_each(|piece| _ = bands.rect([piece.x, y, piece.width, height]));
    drawing.joined(class, &bands, name);
    let wide = |piece: &&Piece| piece.width > BAR_LETTER * name.len() as f64 + 6.0;
    for piece in pieces.iter().filter(wide).filter(|_| height > 10.0) {
        drawing.text("onbar", [piece.x + 4.0, y + 11.0], name);
    }
}

/// An event in a few letters.
fn short(step: &Step) -> String {
    match step.event {
        Event::Command { code, .. } if code & 0x78 != 0 => format!("COMMAND {code:02X}h"),
        Event::Command { code, .. } => format!("COMMAND {}", words::register(code)),
        Event::Write { value, .. } => format!("WRITE {value:02X}h"),
        Event::Read { .. } => format!("READ {:02X}h", step.answer.byte_read),
        Event::Stop { .. } => "STOP".to_string(),
        Event::Pair { value0, value1 } => format!("PAIR {value0:02X}h {value1:02X}h"),
        Event::Lines { scl, sda, int_in } => {
            format!("LINES {} {} {}", u8::from(scl), u8::from(sda), u8::from(int_in))
        }
        Event::Tick => "TICK".to_string(),
        Event::Pulse { sda } => format!("PULSE {}", u8::from(sda)),
        Event::Reset => "RESET".to_string(),
        Event::GeneralCall { code, .. } => format!("GENERAL {code:02X}h"),
        Event::Raw([a, b, c, d]) => format!("{a:02X} {b:02X} {c:02X} {d:02X}"),
    }
}

/// An event as `explain` has it.
fn tip(step: &Step) -> String {
    let mut parts = vec![format!("event {}: {}", step.number, words::event(step))];
    parts.push(words::outcome(step.answer.outcome));
    parts.extend(words::dropped(step));
    parts.extend(step.changes.iter().map(words::change));
    parts.join("; ")
}
