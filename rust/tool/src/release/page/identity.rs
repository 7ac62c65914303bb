//! What made the page: the tool, the library whose judgements stand on it, and the kit that proved that.

use super::html::{pairs, section};
use super::time::utc;
use crate::svg::escaped;
use crate::version::{library, proved_by, TOOL};

/// The moment is in seconds since 1970.
pub fn written(at: u64) -> String {
    let about = [
        ("Page made", escaped(&utc(at))),
        ("Tool", escaped(TOOL)),
        ("Library", escaped(&library())),
        ("Proved by", escaped(&proved_by())),
    ];
    section("identity", "What made this page", &pairs(&about))
}
