//! The columns of a run in words, as wide as there is room. What is longer goes on below, in its own column.

use gunwaleish::Master;

use crate::story::Scene;
use crate::wrap::wrapped;

/// The columns of one line.
pub struct Line {
    pub numbers: String,
    pub ticks: String,
    pub came: String,
    pub answered: String,
    pub scene: Scene,
    pub changed: String,
}

/// How wide the columns are.
pub struct Layout {
    width: usize,
    numbers: usize,
    ticks: usize,
    came: usize,
    answered: usize,
    /// What changed has lines of its own, since there is no room for it beside the others.
    below: bool,
}

const SEEN: &str = "own con wait int SCL SDA";
/// Two spaces stand between columns.
const GAP: usize = 2;
const WHAT_CHANGED: &str = "what changed";
/// With less room than this, what changed stands below.
const LEAST_CHANGED: usize = 30;

impl Layout {
    pub fn of(lines: &[Line], width: usize) -> Layout {
        let longest = |cell: fn(&Line) -> &String, head: &str| {
            let cells = lines.iter().map(|line| cell(line).chars().count());
            cells.max().unwrap_or(0).max(head.len())
        };
        let numbers = longest(|line| &line.numbers, "event");
        let ticks = longest(|line| &line.ticks, "tick");
        let (came, answered) =
            (longest(|line| &line.came, "what came"), longest(|line| &line.answered, "answer"));
        let fixed = numbers + ticks + SEEN.len() + 4 * GAP;
        let below = width < fixed + came.min(44) + answered.min(20) + GAP + LEAST_CHANGED;
        let answered = answered.min(if below { 12 } else { 20 });
        let came = came.min(if below { width - fixed - answered } else { 44 });
        Layout { width, numbers, ticks, came, answered, below }
    }

    pub fn head(&self) -> String {
        let changed = if self.below { "" } else { WHAT_CHANGED };
        let text = self.line(["event", "tick", "what came", "answer", SEEN, changed]);
        match self.below {
            true => format!("{text}{:>1$}\n", WHAT_CHANGED, self.set_in() + WHAT_CHANGED.len()),
            false => text,
        }
    }

    /// Where the column of what came begins.
    fn set_in(&self) -> usize {
        self.numbers + self.ticks + 2 * GAP
    }

    /// What is left for the last column.
    fn changed(&self) -> usize {
        match self.below {
            true => self.width - self.set_in(),
            false => {
                let before = self.set_in() + self.came + self.answered + SEEN.len() + 3 * GAP;
                self.width - before
            }
        }
    }

    pub fn row(&self, line: &Line) -> String {
        let came = wrapped(&line.came, self.came);
        let answered = wrapped(&line.answered, self.answered);
        let changed = wrapped(&line.changed, self.changed());
        let beside = if self.below { &[][..] } else { &changed[..] };
        let height = came.len().max(answered.len()).max(beside.len());
        let cell = |lines: &[String], place: usize| lines.get(place).cloned().unwrap_or_default();
        let mut text = String::new();
        for place in 0..height {
            let first = |word: &str| if place == 0 { word.to_string() } else { String::new() };
            text.push_str(&self.line([
                &first(&line.numbers),
                &first(&line.ticks),
                &cell(&came, place),
                &cell(&answered, place),
                &first(&seen(&line.scene)),
                &cell(beside, place),
            ]));
        }
        if self.below && !line.changed.is_empty() {
            let set_in = " ".repeat(self.set_in());
            changed.iter().for_each(|line| text.push_str(&format!("{set_in}{line}\n")));
        }
        text
    }

    fn line(&self, [numbers, ticks, came, answered, seen, changed]: [&str; 6]) -> String {
        let (a, b, c, d) = (self.numbers, self.ticks, self.came, self.answered);
        let row =
            format!("{numbers:>a$}  {ticks:>b$}  {came:c$}  {answered:d$}  {seen:24}  {changed}");
        format!("{}\n", row.trim_end())
    }
}

/// Who owns, who is connected, who waits, which outputs are asserted, and the lines.
fn seen(scene: &Scene) -> String {
    let who = |flags: [bool; 2]| match flags {
        [false, false] => "-",
        [true, false] => "0",
        [false, true] => "1",
        [true, true] => "0,1",
    };
    let one = |master: Option<Master>| who(Master::BOTH.map(|m| master == Some(m)));
    format!(
        "{:3} {:3} {:4} {:3} {:3} {:3}",
        one(scene.owner),
        one(scene.connected),
        who(scene.waits),
        who(scene.asserted),
        u8::from(scene.scl),
        u8::from(scene.sda)
    )
}
