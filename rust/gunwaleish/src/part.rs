//! The two kinds of part. Document 02, #105.

use core::fmt;

/// The kind of part that is fitted.
///
/// Nothing here has a default: a trace names its part, and whoever writes one says which it is.
///
/// ```
/// use gunwaleish::Part;
///
/// assert_eq!(Part::named("tpt29641"), Some(Part::Tpt29641));
/// assert_eq!((Part::of(0), Part::of(2)), (Some(Part::Pca9641), None));
/// assert_eq!(Part::Pca9641.to_string(), "PCA9641");
/// ```
#[derive(Clone, Copy, Debug, PartialEq, Eq, Hash)]
pub enum Part {
    /// 0: the PCA9641. Its idle timer ends a grant at 101 idle ticks, and its write pointer stays at
    /// 7.
    Pca9641,
    /// 1: the TPT29641, the second source. Its idle timer ends a grant at 151 idle ticks, and its
    /// write pointer rolls from 7 to 0. All else is as in the PCA9641.
    Tpt29641,
}

impl Part {
    /// The PCA9641, then its second source.
    pub const BOTH: [Part; 2] = [Part::Pca9641, Part::Tpt29641];

    /// The number that a trace has for it.
    pub fn number(self) -> u8 {
        self as u8
    }

    /// The part of this number.
    pub fn of(number: u8) -> Option<Part> {
        Part::BOTH.into_iter().find(|part| part.number() == number)
    }

    /// Its name as its maker writes it.
    pub fn name(self) -> &'static str {
        match self {
            Part::Pca9641 => "PCA9641",
            Part::Tpt29641 => "TPT29641",
        }
    }

    /// The part of this name, in capitals or not.
    pub fn named(name: &str) -> Option<Part> {
        Part::BOTH.into_iter().find(|part| part.name().eq_ignore_ascii_case(name))
    }
}

impl fmt::Display for Part {
    fn fmt(&self, f: &mut fmt::Formatter) -> fmt::Result {
        f.write_str(self.name())
    }
}
