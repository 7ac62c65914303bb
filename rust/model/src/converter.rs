//! An old trace, which has no third section, given one. Document 02, #105.

use crate::trace::read_front;
use crate::writer::{put, Written};

/// Writes "an accepted old trace with 01 00 added" into a lent buffer. What 01 refuses is refused
/// by its number, and the room is looked at last. A refusal leaves the buffer untouched.
pub fn convert_trace(old: &[u8], trace: &mut [u8]) -> Written {
    match converted(old) {
        Err(number) => Written { number, length: 0 },
        Ok(bytes) => put(&bytes, trace),
    }
}

/// By 01's rules a trace ends after its events. So a trace that has the third section already is
/// refused with 7.
pub fn converted(old: &[u8]) -> Result<Vec<u8>, u8> {
    if !read_front(old)?.rest.is_empty() {
        return Err(7);
    }
    Ok([old, &[1, 0]].concat())
}

/// What the converting program writes: the new trace, or "M1's R line".
pub fn conversion(old: &[u8]) -> Vec<u8> {
    converted(old).unwrap_or_else(|number| format!("R{number}\n").into_bytes())
}
