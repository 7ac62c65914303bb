//! The two things in which the parts differ, as far as they are told. Document 02, #105.

use gunwaleish::Part;

/// The idle ticks at which the idle timer ends a grant without a reserve.
pub fn idle_limit(part: Part) -> usize {
    match part {
        Part::Pca9641 => 101,
        Part::Tpt29641 => 151,
    }
}

/// True if a written byte at register 7 takes a counting pointer to 0. Else it stays at 7.
pub fn write_pointer_rolls(part: Part) -> bool {
    match part {
        Part::Pca9641 => false,
        Part::Tpt29641 => true,
    }
}
