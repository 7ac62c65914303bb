//! Times the proved library against plain Rust, on the same traces and captures in one run.
//!
//! The steppers it is timed against are in docs/stepper.
//!
//! - [`mixes`]: the traces that are timed; [`alike`]: events of all kinds, each as often as the others.
//! - [`decoder`]: a plain decoder of captures.
//! - [`captures`]: the captures that are timed.
//! - [`timing`]: the best and the median of many, by turns.
//! - [`saying`]: lines on standard output, until nobody reads them; [`asked`]: the words of a program.

pub mod alike;
pub mod asked;
pub mod captures;
pub mod decoder;
pub mod mixes;
pub mod saying;
pub mod timing;
