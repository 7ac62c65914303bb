//! The version, of this crate and of the library that is linked.

use core::fmt;

use crate::boundary;

/// A version: another major for what older callers cannot use as it is, another minor for what is new.
#[derive(Clone, Copy, Debug, PartialEq, Eq, Hash, PartialOrd, Ord)]
pub struct Version {
    /// The first number.
    pub major: u8,
    /// The second number.
    pub minor: u8,
    /// The third number.
    pub patch: u8,
}

/// The version of this crate, and of the library that belongs to it.
pub const VERSION: Version = Version {
    major: number(env!("CARGO_PKG_VERSION_MAJOR")),
    minor: number(env!("CARGO_PKG_VERSION_MINOR")),
    patch: number(env!("CARGO_PKG_VERSION_PATCH")),
};

/// The version of the library that is linked.
///
/// ```
/// assert_eq!(gunwaleish::library_version(), gunwaleish::VERSION);
/// ```
pub fn library_version() -> Version {
    let [patch, minor, major, _] = boundary::version().to_le_bytes();
    Version { major, minor, patch }
}

impl fmt::Display for Version {
    fn fmt(&self, f: &mut fmt::Formatter) -> fmt::Result {
        write!(f, "{}.{}.{}", self.major, self.minor, self.patch)
    }
}

/// A number of the manifest. One above 255 has no place in the packed number, and the crate is not built.
const fn number(text: &str) -> u8 {
    match u8::from_str_radix(text, 10) {
        Ok(number) => number,
        Err(_) => panic!("a number of the crate's version is above 255"),
    }
}
