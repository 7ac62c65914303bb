//! What is seen when it is asked how long a controller can wait by a pair of order sheets. It says
//! nothing about what is right.

use crate::seen::Happenings;
use crate::sheet::{judge, look_up, IDLE, RESERVE};
use crate::wait_of::{wait_of, BOUNDED};

/// The names of all sights that random questions have to reach.
pub const WAIT_SIGHTS: &[&str] = &[
    "wait of controller 0, grade 1",
    "wait of controller 0, grade 2",
    "wait of controller 0, grade 3",
    "wait of controller 1, grade 1",
    "wait of controller 1, grade 2",
    "wait of controller 1, grade 3",
    "wait by the idle timer of kind 0",
    "wait by the idle timer of kind 1",
    "wait behind a reserve of 1",
    "wait behind a reserve of 255",
    "wait behind a reserve with the idle timer on",
    "wait behind a reserve while its own is 0",
    "wait behind a reserve of 0 while its own is more",
    "wait of no such controller",
    "wait with no such kind",
    "wait of no such controller with no such kind",
    "wait of no such controller on a refused sheet",
    "wait with no such kind on a refused sheet",
    "wait of no such controller, not complete",
    "wait with no such kind, not complete",
    "wait with only its own reserve empty",
    "wait with only the other's priority empty",
];

impl Happenings {
    /// Looks at a question about a wait.
    pub fn see_wait(&mut self, board: &[u8], house: &[u8], controller: u8, kind: u8) {
        let refused = judge(board).is_err() || judge(house).is_err();
        let (no_controller, no_kind) = (controller > 1, kind > 1);
        if refused {
            self.note(no_controller, "wait of no such controller on a refused sheet");
            self.note(no_kind, "wait with no such kind on a refused sheet");
            return;
        }
        let empty = empty_boxes(board, house);
        self.note(no_controller && no_kind, "wait of no such controller with no such kind");
        if no_controller || no_kind {
            let complete = empty.is_empty();
            self.note(no_controller && !no_kind && complete, "wait of no such controller");
            self.note(no_kind && !no_controller && complete, "wait with no such kind");
            self.note(no_controller && !complete, "wait of no such controller, not complete");
            self.note(no_kind && !complete, "wait with no such kind, not complete");
            return;
        }
        let other = 1 - controller;
        self.note(empty == [(0, controller)], "wait with only its own reserve empty");
        self.note(empty == [(1, other)], "wait with only the other's priority empty");
        if empty.is_empty() {
            self.see_grade(board, house, controller, kind);
        }
    }

    fn see_grade(&mut self, board: &[u8], house: &[u8], controller: u8, kind: u8) {
        let grade = wait_of(board, house, controller, kind).grade;
        self.note(true, &format!("wait of controller {controller}, grade {grade}"));
        self.note(grade == 2, &format!("wait by the idle timer of kind {kind}"));
        let value = |section, of| look_up(board, house, section, of).part[1];
        let [own, others] = [controller, 1 - controller].map(|of| value(RESERVE, of));
        let timer = value(IDLE, 1 - controller) == 1;
        self.note(others == 1, "wait behind a reserve of 1");
        self.note(others == 255, "wait behind a reserve of 255");
        self.note(grade == BOUNDED && timer, "wait behind a reserve with the idle timer on");
        self.note(others > 0 && own == 0, "wait behind a reserve while its own is 0");
        self.note(others == 0 && own > 0, "wait behind a reserve of 0 while its own is more");
    }
}

/// Section and controller of each box that is ticked on neither of two good sheets.
fn empty_boxes(board: &[u8], house: &[u8]) -> Vec<(u8, u8)> {
    let boxes = (RESERVE..=IDLE).flat_map(|section| [(section, 0), (section, 1)]);
    boxes.filter(|&(section, of)| look_up(board, house, section, of).number == 14).collect()
}
