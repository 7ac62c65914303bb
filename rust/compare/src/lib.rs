//! Compares the proved library with the independent model, call by call, through the library's
//! boundary: packed numbers, every answer byte, every byte that has to stay, every letter of a
//! listing.
//!
//! ```
//! use compare::Figures;
//!
//! let mut figures = Figures::new(14);
//! // A trace of one TICK with room for its answer, with too little room, and cut.
//! let trace = [4, 0, 0, 0, 0, 1, 0, 6, 0, 0, 0, 1, 0];
//! figures.run(&trace, 4);
//! figures.run(&trace, 3);
//! figures.run(&trace[..9], 4);
//! assert!(figures.agree(), "{figures}");
//! ```
//!
//! - [`check`]: one call of each kind on both sides, and what differs.
//! - [`writing`]: the writer of traces on both sides.
//! - [`converting`]: the converter of old traces on both sides.
//! - [`importing`]: the importer of captures on both sides.
//! - [`sheets`]: the order sheet on both sides.
//! - [`waiting`]: how long a controller can wait by its sheets, on both sides.
//! - [`imaging`]: the flat image of a device on both sides.
//! - [`starting`]: all orders of two start-up scripts on both sides.
//! - [`shelving`]: a shelf of several arbiters on both sides.
//! - [`sharing`]: the totals of the bus share report on both sides.
//! - [`advancing`]: advances over quiet time on both sides.
//! - [`words`]: events and answers in words, for what differs.
//! - [`cases`]: random calls, good and damaged, in rounds.
//! - [`fixed`]: calls that are few enough to try them all.
//! - [`wanted`]: the numbers and sights that have to occur.
//! - [`figures`]: how many there were, what happened in them, and what never did.

pub mod advancing;
pub mod cases;
pub mod check;
pub mod converting;
pub mod figures;
pub mod fixed;
pub mod imaging;
pub mod importing;
pub mod sharing;
pub mod sheets;
pub mod shelving;
pub mod starting;
pub mod waiting;
pub mod wanted;
pub mod words;
pub mod writing;

pub use cases::round;
pub use figures::Figures;

/// A seed from the clock, for runs that are to differ from each other.
pub fn clock_seed() -> u64 {
    let since = std::time::SystemTime::now().duration_since(std::time::UNIX_EPOCH);
    since.map_or(1, |time| time.as_nanos() as u64 % 1_000_000_000)
}

/// The seed that the variable SEED names, or else the given one.
pub fn seed_or(otherwise: u64) -> u64 {
    match std::env::var("SEED") {
        Ok(text) => text.parse().expect("SEED has to be a number"),
        Err(_) => otherwise,
    }
}
