//! Both upstream buses and the lines around them, sample by sample: a chip that is played on them,
//! captures of it, and a listener.
//!
//! A sample is one byte: bits 0 to 3 are SCL0, SDA0, SCL1 and SDA1 (#104), bits 4, 5 and 6 the
//! downstream SCL, SDA and INT_IN. So many samples are one TICK. What happens in one sample stands in
//! this order:
//!
//! 1. LINES, if one of bits 4 to 6 is not as in the sample before. Before the first sample all three
//!    are high, as at power-up.
//! 2. The events of the upstream buses, as #104 has them: master 0 first, two data writes as PAIR.
//! 3. TICK, if so many samples have passed since the first one, which is number 0.
//!
//! PULSE and RESET stand on none of these lines, so they never come, and no script here sets
//! BUS_INIT.
//!
//! The two sides share the model and `bus`, and nothing else:
//!
//! - `bus`: the lines in a sample, what is known of a capture, what is told of one.
//! - `script`, `moves`, `plan`, `chip`, `play`: two controllers and a chip played as levels, with what is true
//!   of the capture that comes of it (`played`).
//! - `stories`, `random`, `noise`, `catalogue`: the captures there are, by hand and by seed.
//! - `listen`: the listener, which has samples and nothing else.
//! - `lists`: a second reader, which goes by the importer of #104, for samples that nobody meant.
//! - `formats`: a capture as raw bytes, VCD and CSV.

pub mod bus;
pub mod catalogue;
pub mod chip;
pub mod formats;
pub mod listen;
pub mod lists;
pub mod moves;
pub mod noise;
pub mod plan;
pub mod play;
pub mod played;
pub mod random;
pub mod script;
pub mod stories;

pub use bus::{answer_of, Fault, ReadByte, Setting, Sign, DOWN_SCL, DOWN_SDA, INT_IN, LINES};
pub use chip::Flaw;
pub use listen::Listener;
pub use play::{play, Scene};
pub use played::Played;
