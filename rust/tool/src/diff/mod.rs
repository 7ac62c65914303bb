//! Two runs laid side by side: where their events differ, and where their answers first do. `words` tells
//! it.

pub mod words;

use std::ops::Range;

use gunwaleish::Event;

use crate::story::Story;

/// One of the two.
#[derive(Clone, Debug, PartialEq, Eq)]
pub struct Side {
    pub name: String,
    pub story: Story,
}

impl Side {
    fn events(&self) -> Vec<Event> {
        self.story.steps.iter().map(|step| step.event).collect()
    }
}

/// A place where the events are not the same: those of A and those of B, from 0. One may be empty.
#[derive(Clone, Debug, PartialEq, Eq)]
pub struct Place {
    pub a: Range<usize>,
    pub b: Range<usize>,
}

/// What there is between two runs.
#[derive(Clone, Debug, PartialEq, Eq)]
pub struct Difference {
    /// The pins or the part are not the same.
    pub devices: bool,
    pub places: Vec<Place>,
    /// The events that belong together: the same ones, and where as many are replaced as there were, each
    /// with its own.
    pub pairs: Vec<(usize, usize)>,
    /// Those of them that are answered differently.
    pub answers: Vec<(usize, usize)>,
}

impl Difference {
    pub fn between(a: &Side, b: &Side) -> Difference {
        let (first, second) = (a.events(), b.events());
        let places = places(&first, &second);
        let pairs = pairs(&places, first.len());
        let other = |&(i, j): &(usize, usize)| a.story.steps[i].answer != b.story.steps[j].answer;
        let answers = pairs.iter().copied().filter(other).collect();
        let device = |side: &Side| (side.story.pins, side.story.part);
        Difference { devices: device(a) != device(b), places, pairs, answers }
    }

    pub fn is_none(&self) -> bool {
        !self.devices && self.places.is_empty() && self.answers.is_empty()
    }
}

/// Where two lists differ, so that as many events as can be are the same in both.
pub fn places(a: &[Event], b: &[Event]) -> Vec<Place> {
    let front = a.iter().zip(b).take_while(|(x, y)| x == y).count();
    let (a_rest, b_rest) = (&a[front..], &b[front..]);
    let back = a_rest.iter().rev().zip(b_rest.iter().rev()).take_while(|(x, y)| x == y).count();
    let same = longest(&a_rest[..a_rest.len() - back], &b_rest[..b_rest.len() - back]);
    let middle = same.into_iter().map(|(i, j)| (front + i, front + j));
    let ends = (0..back).map(|place| (a.len() - back + place, b.len() - back + place));
    let mut places: Vec<Place> = vec![];
    let (mut from_a, mut from_b) = (front, front);
    for (i, j) in middle.chain(ends).chain([(a.len(), b.len())]) {
        if (from_a, from_b) != (i, j) {
            places.push(Place { a: from_a..i, b: from_b..j });
        }
        (from_a, from_b) = (i + 1, j + 1);
    }
    places
}

/// The longest list of events that both have in their order, as places in both.
fn longest(a: &[Event], b: &[Event]) -> Vec<(usize, usize)> {
    if a.is_empty() || b.is_empty() {
        return vec![];
    }
    // For each place of a and of b, how many events can be the same from there on.
    let width = b.len() + 1;
    let mut most = vec![0u16; (a.len() + 1) * width];
    for i in (0..a.len()).rev() {
        for j in (0..b.len()).rev() {
            most[i * width + j] = match a[i] == b[j] {
                true => most[(i + 1) * width + j + 1] + 1,
                false => most[(i + 1) * width + j].max(most[i * width + j + 1]),
            };
        }
    }
    let (mut i, mut j) = (0, 0);
    let mut same = vec![];
    while i < a.len() && j < b.len() {
        if a[i] == b[j] {
            same.push((i, j));
            (i, j) = (i + 1, j + 1);
        } else if most[(i + 1) * width + j] >= most[i * width + j + 1] {
            i += 1;
        } else {
            j += 1;
        }
    }
    same
}

/// The events of a list of so many that belong to one of the other.
fn pairs(places: &[Place], length: usize) -> Vec<(usize, usize)> {
    let mut pairs = vec![];
    let (mut i, mut j) = (0, 0);
    for place in places {
        pairs.extend((i..place.a.start).zip(j..));
        if place.a.len() == place.b.len() {
            pairs.extend(place.a.clone().zip(place.b.clone()));
        }
        (i, j) = (place.a.end, place.b.end);
    }
    pairs.extend((i..length).zip(j..));
    pairs
}
