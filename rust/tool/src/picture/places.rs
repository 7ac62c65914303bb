//! Where a step stands on paper.
//!
//! The steps stand on one long line, which is cut into strips as wide as the paper. In a run that is too
//! long for one strip, ticks in which nothing changes are folded: many of them take little room.

use std::ops::Range;

use crate::story::{Scene, Story};

/// Where the lanes begin, right of their names.
pub const LEFT: f64 = 104.0;
/// More quiet ticks than this in a row are folded to that width, where the run is long.
const FOLDED: usize = 40;
/// Events that are wider than this have room for their words.
const WORDY: f64 = 10.0;
/// The width of an event that has lost its words.
const WORDLESS: f64 = 6.0;
/// Events that are at least so wide have room for a mark.
pub const MARKED: f64 = 2.0;

/// The room for the steps of a run.
#[derive(Clone, Copy)]
pub struct Room {
    /// Of a strip.
    strip: f64,
    /// So many strips at the most, and so many with the words of the events.
    strips: usize,
    wordy: usize,
    /// What is so wide a pointer can be laid on, and it says its own words there.
    pointed: f64,
}

/// A file of its own goes on as long as the run. Whoever looks at it can make it larger, and then each event can be pointed at.
pub const FILE: Room = Room { strip: 906.0, strips: usize::MAX, wordy: usize::MAX, pointed: 2.9 };
/// A page of HTML is printed too, and a picture of so many strips stands on one sheet of A4.
pub const PAGE: Room = Room { strip: 612.0, strips: 3, wordy: 1, pointed: 8.0 };

impl Room {
    fn holds(&self, places: &Places) -> bool {
        places.strips() <= self.most(places.wordy)
    }

    /// So many strips at the most, with the words of the events or without.
    fn most(&self, wordy: bool) -> usize {
        match wordy {
            true => self.wordy,
            false => self.strips,
        }
    }
}

/// A moment of a run, as far as its place goes.
#[derive(Clone, Copy, Debug, PartialEq, Eq)]
pub struct Moment {
    pub is_tick: bool,
    /// Nothing changes in it.
    pub quiet: bool,
}

impl Moment {
    pub fn all(story: &Story) -> Vec<Moment> {
        let moment = |step: &crate::story::Step| Moment {
            is_tick: step.event == gunwaleish::Event::Tick,
            quiet: step.is_quiet_tick(),
        };
        story.steps.iter().map(moment).collect()
    }
}

/// A piece of the line, in its strip: the strip's number, x and width.
#[derive(Clone, Copy, Debug, PartialEq)]
pub struct Piece {
    pub strip: usize,
    pub x: f64,
    pub width: f64,
}

pub struct Places {
    /// The place of each step on the line.
    pub at: Vec<f64>,
    /// Where the run ends, or what is shown of it.
    pub end: f64,
    /// Where the first tick begins, if there is one.
    pub first_tick: Option<f64>,
    /// The room for the steps of a strip, and where each strip begins.
    room: f64,
    strips: Vec<f64>,
    /// The stretches of events between two ticks. They take no time.
    pub apart: Vec<[f64; 2]>,
    /// Ticks that are folded: from where to where, and how many.
    pub folded: Vec<([f64; 2], usize)>,
    /// There is room for a mark of each event, and for its words.
    pub marked: bool,
    pub wordy: bool,
    /// What is so wide says its own words under the pointer.
    pub pointed: f64,
    /// The steps that are shown.
    pub shown: Range<usize>,
}

/// How wide the steps are, and many quiet ticks together if they are folded.
#[derive(Clone, Copy)]
struct Widths {
    event: f64,
    tick: f64,
    fold: Option<f64>,
}

/// Widths that just fill a strip may add up to a little more.
const SLACK: f64 = 0.5;
/// As narrow as the words of an event can stand beside each other.
const NARROW: f64 = 11.0;
/// The width of a tick where quiet ones are folded.
const UNFOLDED: f64 = 2.0;

impl Widths {
    /// All of it on one strip if that can be: with wide ticks, with narrow ones, or with quiet ones folded.
    fn of(moments: &[Moment], widest: f64, room: f64) -> Widths {
        let ticks = moments.iter().filter(|moment| moment.is_tick).count() as f64;
        let others = moments.len() as f64 - ticks;
        let wide = (1600.0 / others.max(1.0)).clamp(3.0, widest);
        let widths = || (0..=4).map(|less| (wide - f64::from(less)).max(NARROW.min(wide)));
        for least in [1.0, 0.5] {
            for event in widths() {
                let tick = (room - event * others) / ticks.max(1.0);
                if tick >= least || ticks == 0.0 && tick >= 0.0 {
                    return Widths { event, tick: tick.min(14.0), fold: None };
                }
            }
        }
        let runs: Vec<&[Moment]> = moments.chunk_by(|a, b| a.quiet && b.quiet).collect();
        let folded = |run: &&&[Moment]| run[0].quiet && run.len() > FOLDED;
        let gone: usize = runs.iter().filter(folded).map(|run| run.len() - FOLDED).sum();
        let left = |event: f64| room - event * others - UNFOLDED * (ticks - gone as f64);
        let event = widths().find(|event| left(*event) >= 0.0).unwrap_or(wide);
        Widths { event, tick: UNFOLDED, fold: Some(FOLDED as f64) }
    }

    /// First the words of the events go, then all of it shrinks.
    fn narrower(self) -> Widths {
        if self.event > WORDY {
            return Widths { event: WORDLESS, ..self };
        }
        let less = |width: f64| 0.8 * width;
        Widths { event: less(self.event), tick: less(self.tick), fold: self.fold.map(less) }
    }
}

impl Places {
    /// The places of these moments, of which some are shown. Ticks are all of one width, and so are the
    /// other events, which are no wider than `widest`.
    pub fn new(moments: &[Moment], shown: Range<usize>, widest: f64, room: Room) -> Places {
        let inside = &moments[shown.clone()];
        let mut widths = Widths::of(inside, widest, room.strip);
        // Widths of which even the events alone are too many need not be laid, and for a very long run these are a dozen.
        let events = inside.iter().filter(|moment| !moment.is_tick).count() as f64;
        let most = |widths: Widths| (room.strip + SLACK) * room.most(widths.event > WORDY) as f64;
        while widths.event * events > most(widths) {
            widths = widths.narrower();
        }
        loop {
            let places = Places::laid(moments, shown.clone(), widths, room);
            if room.holds(&places) {
                return places;
            }
            widths = widths.narrower();
        }
    }

    fn laid(moments: &[Moment], shown: Range<usize>, widths: Widths, room: Room) -> Places {
        let inside = &moments[shown.clone()];
        let mut places = Places {
            at: vec![0.0; shown.start],
            end: 0.0,
            first_tick: None,
            room: room.strip,
            strips: vec![0.0],
            apart: vec![],
            folded: vec![],
            marked: widths.event >= MARKED,
            wordy: widths.event > WORDY,
            pointed: room.pointed,
            shown,
        };
        let alike = |a: &Moment, b: &Moment| match widths.fold {
            Some(_) => a.quiet && b.quiet,
            None => a.is_tick == b.is_tick,
        };
        for run in inside.chunk_by(alike) {
            match widths.fold.filter(|_| run[0].quiet && run.len() > FOLDED) {
                Some(width) => places.fold(run.len(), width),
                None => run.iter().for_each(|moment| match moment.is_tick {
                    true => places.tick(widths.tick),
                    false => places.event(widths.event),
                }),
            }
        }
        places.at.resize(moments.len(), places.end);
        places
    }

    /// Begins a new strip, if so much does not fit on this one any more.
    fn make_room(&mut self, width: f64) {
        if self.end + width > self.strips.last().copied().unwrap_or(0.0) + self.room + SLACK {
            self.strips.push(self.end);
        }
    }

    fn tick(&mut self, width: f64) {
        self.make_room(width);
        self.first_tick.get_or_insert(self.end);
        self.end += width;
        self.at.push(self.end);
    }

    fn event(&mut self, width: f64) {
        self.make_room(width);
        let from = self.end;
        self.at.push(from + width / 2.0);
        self.end += width;
        match self.apart.last_mut().filter(|stretch| stretch[1] == from) {
            Some(stretch) => stretch[1] = self.end,
            None => self.apart.push([from, self.end]),
        }
    }

    fn fold(&mut self, ticks: usize, width: f64) {
        self.make_room(width);
        let from = self.end;
        self.first_tick.get_or_insert(from);
        self.end += width;
        self.folded.push(([from, self.end], ticks));
        let part = width / ticks as f64;
        self.at.extend((1..=ticks).map(|tick| from + part * tick as f64));
    }

    pub fn strips(&self) -> usize {
        self.strips.len()
    }

    /// Where a strip ends on the line.
    fn end_of(&self, strip: usize) -> f64 {
        self.strips.get(strip + 1).copied().unwrap_or(self.end)
    }

    /// The x at which a strip ends.
    pub fn right(&self, strip: usize) -> f64 {
        LEFT + self.end_of(strip) - self.strips[strip]
    }

    /// The strip and the x of a place on the line. Where a strip ends and the next begins, it is the end.
    pub fn point(&self, at: f64) -> (usize, f64) {
        // The strip after the last one that begins before it; at its own beginning a strip is not.
        let strip = self.strips.partition_point(|start| *start < at).saturating_sub(1);
        (strip, LEFT + at - self.strips[strip])
    }

    /// The steps whose places are on a strip, among those that are shown.
    pub fn on_strip(&self, strip: usize) -> Range<usize> {
        let from = self.shown.start;
        let at = &self.at[self.shown.clone()];
        let before = |strip: usize| from + at.partition_point(|&at| self.point(at).0 < strip);
        before(strip)..before(strip + 1)
    }

    /// A stretch of the line in its strips.
    pub fn pieces(&self, [from, to]: [f64; 2]) -> Vec<Piece> {
        let piece = |strip: usize| {
            let start = self.strips[strip];
            let (from, to) = (from.max(start), to.min(self.end_of(strip)));
            (to > from).then_some(Piece { strip, x: LEFT + from - start, width: to - from })
        };
        let (first, last) = (self.point(from).0, self.point(to).0);
        (first..=last).filter_map(piece).collect()
    }

    /// The place of a step of a story; past its last one, the end.
    pub fn of(&self, story: &Story, step: usize) -> f64 {
        let number = story.steps.get(step).map(|step| step.number);
        number.and_then(|number| self.at.get(number - 1)).copied().unwrap_or(self.end)
    }

    /// From the step at this place of a story to the one at that place, which may be its end.
    pub fn span(&self, story: &Story, from: usize, to: usize) -> Vec<Piece> {
        self.pieces([self.of(story, from), self.of(story, to)])
    }
}

/// Stretches over which something stays the same: what it is, the place of the first step, and the
/// place of the step that ends it.
pub fn stretches<T: PartialEq>(story: &Story, of: impl Fn(&Scene) -> T) -> Vec<(T, usize, usize)> {
    let mut stretches = vec![];
    let mut from = 0;
    for run in story.steps.chunk_by(|a, b| of(&a.scene) == of(&b.scene)) {
        stretches.push((of(&run[0].scene), from, from + run.len()));
        from += run.len();
    }
    stretches
}
