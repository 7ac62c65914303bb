//! Samples of a bus, out of what field engineers have: raw bytes, VCD, CSV with a header of names, and
//! sigrok's sessions by way of `sigrok-cli`.
//!
//! A sample is one byte: bits 0 to 3 are SCL0, SDA0, SCL1 and SDA1, bits 4 to 6 the downstream SCL, SDA
//! and INT_IN. What a file is, is seen from its first bytes (`form`). Its text is read as it comes, in
//! pieces of any length (`piece`), and given on at once, so that a long file needs no more memory than a short
//! one: `vcd` and `csv` by lines and words, `channels` from names to bits, `rate` from time to samples,
//! `session` for what needs sigrok. `reader` holds them together, `taken` is a capture for
//! `import`, and `timed` puts time between its events.

pub mod channels;
pub mod csv;
pub mod form;
pub mod piece;
pub mod rate;
pub mod reader;
pub mod session;
pub mod taken;
pub mod timed;
pub mod timeline;
pub mod vcd;

use crate::telling::complain;

pub use form::Form;
pub use piece::{Head, Piece, Said, Taker, BELOW, HIGH};
pub use reader::{read_all, read_path, Reader};
pub use taken::Taken;

/// Tells how many changes were lost in a file of this name, if any were.
pub fn tell_crowded(name: &str, crowded: u64) {
    if crowded > 0 {
        complain(&format!(
            "{name}: {} lost, since a later one stands in the same sample; a higher --samplerate keeps more",
            if crowded == 1 { "1 change is".to_string() } else { format!("{crowded} changes are") }
        ));
    }
}
