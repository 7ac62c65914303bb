//! The page to file with a release: one file of HTML that opens anywhere, with nothing else.
//!
//! It has no script and refers to nothing outside it. It is well-formed as XML too. Everything on it stands
//! in what was examined; `statements` has by name what proves the waits, and each other file has a part of
//! the page, in the order of `page`.

mod bench;
mod figure;
mod files;
mod html;
mod identity;
mod orders;
mod reasons;
mod sheets;
mod start;
pub mod statements;
mod style;
pub mod time;
mod verdict;
pub mod waits;

use super::Examined;
use crate::svg::escaped;

/// The whole page. It is made at this moment, in seconds since 1970.
pub fn page(examined: &Examined, at: u64) -> String {
    let body = [
        verdict::written(examined),
        reasons::written(examined),
        sheets::written(examined),
        waits::written(examined),
        start::written(examined),
        orders::written(examined),
        bench::written(examined),
        files::written(examined),
        identity::written(at),
    ];
    format!(
        "<!DOCTYPE html>\n<html lang=\"en\">\n<head>\n<meta charset=\"utf-8\"/>\n\
         <meta name=\"viewport\" content=\"width=device-width, initial-scale=1\"/>\n\
         <title>{}</title>\n<style>\n{}</style>\n</head>\n<body>\n<main>\n{}</main>\n</body>\n</html>\n",
        escaped(&verdict::title(examined)),
        style::style(),
        body.concat()
    )
}
