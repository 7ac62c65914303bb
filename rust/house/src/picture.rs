//! The picture of the house, `docs/pictures/house.svg`, drawn from `crates.txt`: a box for each group with its crates, floor upon floor, and
//! arrows from what is stood on to what stands on it.

use crate::arrows::arrows;
use crate::flows::Flows;
use crate::groups::{groups_of, CRATES};
use crate::plan::{floors_of, lines_of, Placed, EDGE, LINE, WIDTH};
use crate::svg::text;
use crate::tree::Tree;

/// Where the picture stands.
pub const HOUSE: &str = "docs/pictures/house.svg";

/// Above the highest floor, and the air above the roof.
const ROOF: f64 = 58.0;
const AIR: f64 = 8.0;
/// Between two floors, where the arrows are.
const STAIRS: f64 = 58.0;
/// Below the ground, for the legend.
const LEGEND: f64 = 36.0;

const GREEN: &str = "#1f6f3f";
const PALE: &str = "#eef4f0";
const GREY: &str = "#5a5a5a";

/// The picture, if there is a list of crates.
pub fn house_picture(tree: &Tree) -> Option<String> {
    let flows = Flows::of(groups_of(tree.text(CRATES)?));
    let mut floors = floors_of(&flows);
    let mut top = AIR + ROOF;
    for floor in floors.iter_mut().rev() {
        floor.iter_mut().for_each(|one| one.top = top);
        top += floor[0].height + STAIRS;
    }
    let height = top - STAIRS + LEGEND;
    let mut svg = format!(
        "<svg xmlns=\"http://www.w3.org/2000/svg\" width=\"{WIDTH}\" height=\"{height}\" font-family=\"sans-serif\" font-size=\"12\">\n\
         <rect width=\"{WIDTH}\" height=\"{height}\" fill=\"white\"/>\n"
    );
    svg += &roof(&flows);
    let boxes: Vec<Placed> = floors.into_iter().flatten().collect();
    boxes.iter().for_each(|one| svg += &drawn(&flows, one));
    svg += &arrows(&flows, &boxes);
    svg += &legend(height - LEGEND);
    Some(svg + "</svg>\n")
}

fn roof(flows: &Flows) -> String {
    let crates: usize = flows.groups.iter().map(|group| group.crates.len()).sum();
    let (middle, right) = (WIDTH / 2.0, WIDTH - EDGE);
    let below = AIR + ROOF - 6.0;
    let shape = format!(
        "<path d=\"M{EDGE} {below} L{middle} {AIR} L{right} {below} Z\" fill=\"{PALE}\" stroke=\"{GREEN}\"/>\n"
    );
    let words = format!("{crates} crates in {} groups", flows.groups.len());
    shape + &text(middle, below - 10.0, " text-anchor=\"middle\" font-size=\"14\"", &words)
}

/// A group's box: its title, what is said of it, the names of its crates.
fn drawn(flows: &Flows, one: &Placed) -> String {
    let group = &flows.groups[one.group];
    let mut svg = format!(
        "<rect x=\"{:.0}\" y=\"{:.0}\" width=\"{:.0}\" height=\"{:.0}\" rx=\"4\" fill=\"{PALE}\" stroke=\"{GREEN}\"/>\n",
        one.left, one.top, one.width, one.height
    );
    let mut y = one.top + LINE + 2.0;
    let style = " font-weight=\"bold\" font-size=\"13\"";
    svg += &text(one.left + EDGE, y, style, &group.title);
    for (lines, style) in [
        (&one.says, format!(" font-size=\"11\" fill=\"{GREY}\"")),
        (&one.names, format!(" xml:space=\"preserve\" fill=\"{GREEN}\"")),
    ] {
        for line in lines {
            y += LINE;
            svg += &text(one.left + EDGE, y, &style, line);
        }
    }
    svg
}

fn legend(top: f64) -> String {
    let words = "An arrow leads from crates to the group that stands on them; what follows from other arrows is left out.";
    let lines = lines_of(words.split(' '), " ", WIDTH - 2.0 * EDGE, 11.0);
    let lines = lines.iter().enumerate();
    lines
        .map(|(at, line)| text(EDGE, top + 22.0 + LINE * at as f64, " font-size=\"11\"", line))
        .collect()
}
