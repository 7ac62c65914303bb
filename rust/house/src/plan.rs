//! Where the boxes of the picture of the house stand: floors from the ground up, and on each a box for every group, near those it stands on.

use crate::flows::Flows;

pub const WIDTH: f64 = 900.0;
/// Between the picture's edge or a box's and what is in it.
pub const EDGE: f64 = 10.0;
/// Between two boxes on a floor, and where arrows go between these.
const GAP: f64 = 20.0;
const DOOR: f64 = 104.0;
/// A line of text, and what a letter takes of its font's size, on the average of a line and in wide fonts.
pub const LINE: f64 = 16.0;
const LETTER: f64 = 0.57;
/// The sizes of the letters of names and of words.
const NAMES: f64 = 12.0;
const WORDS: f64 = 11.0;

/// A group's box, with its lines of words and of names.
pub struct Placed {
    pub group: usize,
    pub left: f64,
    pub top: f64,
    pub width: f64,
    pub height: f64,
    pub says: Vec<String>,
    pub names: Vec<String>,
}

impl Placed {
    pub fn right(&self) -> f64 {
        self.left + self.width
    }

    pub fn below(&self) -> f64 {
        self.top + self.height
    }

    pub fn middle(&self) -> f64 {
        self.left + self.width / 2.0
    }
}

/// The boxes of each floor from the ground up, without their heights in the picture.
pub fn floors_of(flows: &Flows) -> Vec<Vec<Placed>> {
    let mut floors: Vec<Vec<Placed>> = Vec::new();
    for mut groups in flows.floors() {
        let below: Vec<&Placed> = floors.iter().flatten().collect();
        let place = |group: &usize| middle_below(flows, &below, *group);
        groups.sort_by(|a, b| place(a).total_cmp(&place(b)));
        floors.push(floor_of(flows, &groups));
    }
    floors
}

/// The middle of the boxes that a group has arrows from.
fn middle_below(flows: &Flows, below: &[&Placed], group: usize) -> f64 {
    let arrows = flows.arrows();
    let is_under = |one: &&&Placed| arrows.contains(&(one.group, group));
    let from: Vec<f64> = below.iter().filter(is_under).map(|one| one.middle()).collect();
    from.iter().sum::<f64>() / from.len().max(1) as f64
}

/// Boxes side by side, each as wide as its names ask, all as high as the highest.
fn floor_of(flows: &Flows, groups: &[usize]) -> Vec<Placed> {
    let flow = |a: usize, b: usize| !flows.carried(a, b).is_empty() && groups.contains(&b);
    let has_doors = groups.iter().any(|&a| groups.iter().any(|&b| flow(a, b)));
    let gap = if has_doors { DOOR } else { GAP };
    let free = WIDTH - 2.0 * EDGE - gap * (groups.len() - 1) as f64;
    let all: f64 = groups.iter().map(|&group| weight(flows, group)).sum();
    let mut left = EDGE;
    let mut boxes = Vec::new();
    for &group in groups {
        let width = (free * weight(flows, group) / all).floor();
        boxes.push(placed(flows, group, left, width));
        left += width + gap;
    }
    let high = boxes.iter().map(|one| one.height).fold(0.0, f64::max);
    boxes.iter_mut().for_each(|one| one.height = high);
    boxes
}

/// How much of a floor a group asks for: by its letters, and something for its title.
fn weight(flows: &Flows, group: usize) -> f64 {
    let names = flows.groups[group].crates.iter();
    names.map(|known| known.name.len() as f64 + 2.0).sum::<f64>() + 40.0
}

fn placed(flows: &Flows, group: usize, left: f64, width: f64) -> Placed {
    let known = &flows.groups[group];
    let inside = width - 2.0 * EDGE;
    let says = lines_of(known.says.split_whitespace(), " ", inside, WORDS);
    let names = known.crates.iter().map(|known| known.name.as_str());
    let names = lines_of(names, "  ", inside, NAMES);
    let height = LINE * (1 + says.len() + names.len()) as f64 + EDGE;
    Placed { group, left, top: 0.0, width, height, says, names }
}

/// Words put into lines no wider than this, in letters of this size.
pub fn lines_of<'a>(
    words: impl Iterator<Item = &'a str>,
    between: &str,
    width: f64,
    size: f64,
) -> Vec<String> {
    let most = (width / (size * LETTER)) as usize;
    let mut lines: Vec<String> = Vec::new();
    for word in words {
        match lines.last_mut() {
            Some(line) if line.len() + between.len() + word.len() <= most => {
                line.push_str(between);
                line.push_str(word);
            }
            _ => lines.push(word.to_string()),
        }
    }
    lines
}
