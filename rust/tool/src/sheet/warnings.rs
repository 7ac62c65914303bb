//! What is to be warned of in a pair of sheets: a wait that nothing bounds, or that is bounded behind a silent
//! controller alone.
//!
//! The library grades each wait, and here is how grades 2 and 3 are told wherever they are. A ticked
//! reserve of 0 is an order all the same.

use std::fmt;

use gunwaleish::{Master, Section, Sheet};

use super::{BoxName, Pair};

/// A wait without a bound behind a controller that lives.
#[derive(Clone, Copy, Debug, PartialEq, Eq)]
pub struct Warning {
    /// Whose wait it is.
    pub controller: Master,
    /// The library's grade: 2, bounded behind a silent controller alone, or 3, not bounded.
    pub grade: u8,
    /// The box to mend: the other controller's reserve.
    pub mend: BoxName,
    /// The sheet that this box comes from.
    pub sheet: Sheet,
}

impl Warning {
    /// What is wrong, as a sentence without its full stop.
    pub fn what(&self) -> String {
        let (waiting, holder) = (self.controller, self.controller.partner());
        match self.grade {
            2 => format!(
                "controller {waiting}'s wait is bounded behind a silent controller {holder} alone: controller \
                 {holder}'s reserve is without limit, and its idle timer ends it on an idle bus only"
            ),
            _ => format!(
                "controller {waiting}'s wait is not bounded: controller {holder}'s reserve is without \
                 limit and its idle timer off, which is the incident's own setting"
            ),
        }
    }

    /// What would mend it, as the form has it.
    pub fn remedy(&self) -> String {
        format!("{}: fill in 1 to 255", self.mend)
    }
}

impl fmt::Display for Warning {
    fn fmt(&self, f: &mut fmt::Formatter) -> fmt::Result {
        let (what, remedy) = (self.what(), self.remedy());
        write!(f, "grade {}: {what}. To mend it, on the {}: {remedy}.", self.grade, self.sheet)
    }
}

/// All that is to be warned of, the worst first. Of a pair with an empty box there is no wait to grade.
pub fn warnings(pair: &Pair) -> Vec<Warning> {
    let mut all: Vec<Warning> = pair.waits.iter().filter_map(|wait| warning(pair, wait)).collect();
    all.sort_by_key(|warning| std::cmp::Reverse(warning.grade));
    all
}

fn warning(pair: &Pair, waiting: &super::Waiting) -> Option<Warning> {
    // The grade does not go by the part.
    let [(_, wait), _] = waiting.on;
    let controller = waiting.controller;
    let mend = BoxName { section: Section::Reserve, controller: controller.partner() };
    let sheet = pair.entries.iter().find(|entry| entry.name == mend)?.found?.sheet;
    (wait.grade() > 1).then_some(Warning { controller, grade: wait.grade(), mend, sheet })
}
