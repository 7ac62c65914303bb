//! Document 01's rules, as requests #102, #105 and #107 left them, in plain Rust (request #114).
//!
//! - [`plain`]: what a bench engineer writes first. All seven parts of a step, each time.
//! - [`tuned`]: the same rules tuned by hand. An event calls only those parts that it can move.
//! - [`reading`]: the trace around the events, for both.
//!
//! ```
//! use stepper::{plain, tuned};
//!
//! // Master 0 opens CONTR and asks for the bus.
//! let trace = [4, 0, 0, 0, 0, 2, 0, 0, 0, 1, 0, 1, 0, 5, 0, 1, 0];
//! let (mut first, mut second) = ([0; 8], [0; 8]);
//! assert!(plain::run_trace(&trace, &mut first).is_ok());
//! assert!(tuned::run_trace(&trace, &mut second).is_ok());
//! assert_eq!(first, [0, 0, 0x00, 0x0C, 0, 0, 0x20, 0x0C]);
//! assert_eq!(second, first);
//! ```
//!
//! Neither is proved. A test holds both to the independent model, and `rust/speed` measures the
//! proved library against both.

pub mod plain;
pub mod reading;
pub mod tuned;
