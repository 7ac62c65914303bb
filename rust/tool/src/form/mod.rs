//! The text form of an order sheet: a line for each box, as the form has it.
//!
//! | line | box |
//! |---|---|
//! | `Downstream reserve, ms, controller 0: 50` | ticked, 50; so with 1 to 255 |
//! | `Downstream reserve, ms, controller 1: without limit` | ticked, 0 |
//! | `Priority, controller 0: 0` | ticked, 0; so with 1 |
//! | `Idle timer, controller 1: 1` | ticked, 1; so with 0 |
//! | `Priority, controller 1: empty` | not ticked |
//!
//! Values are in decimal, upper and lower case are one, and what stands after `#` is a comment. The lines
//! come in any order, and each box has one, also if it is empty: what is left out by mistake is never
//! taken for empty. A reserve of 0 has to be written in words, since a 0 that nobody meant is how the
//! incident came about.
//!
//! `boxes` has what a sheet and its text have in common, `reading` reads the text line by line, `values` what stands after a box's name, `nearest` finds the name that
//! a mistyped one is nearest to, and `writing` writes it.

mod boxes;
mod nearest;
mod reading;
mod values;
mod writing;

pub use boxes::{boxes_of, sheet_of, Boxes};
pub use reading::{begins_with_box, read, Mistake};
pub use values::{written, EMPTY, WITHOUT_LIMIT};
pub use writing::{choices, write, RESERVES};
