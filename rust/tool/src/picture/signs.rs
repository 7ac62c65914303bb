//! Signs of one kind on a strip, put there from left to right.

use super::places::MARKED;
use crate::svg::Joined;

/// Where a sign has no room beside the last one, that stands for both: nobody could tell them from each other.
#[derive(Default)]
pub struct Signs {
    pub shapes: Joined,
    last: Option<f64>,
}

impl Signs {
    /// What to draw a sign at this x on, if it has room.
    pub fn at(&mut self, x: f64) -> Option<&mut Joined> {
        // Widths that are just wide enough may add up to a little less.
        if self.last.is_some_and(|last| x - last < MARKED - 0.05) {
            return None;
        }
        self.last = Some(x);
        Some(&mut self.shapes)
    }
}
