//! Why the bundle is not released, worst first: each with its file and box, and with what would mend it.

use super::html::{code, pairs, paragraph, section};
use crate::release::{Examined, Rank, Reason};
use crate::svg::escaped;

pub fn written(examined: &Examined) -> String {
    let reasons: String = examined.reasons.iter().map(reason).collect();
    let body = match reasons.is_empty() {
        true => paragraph("There is none."),
        false => format!("<ol class=\"reasons\">\n{reasons}</ol>\n"),
    };
    section("reasons", "Reasons against it, worst first", &body)
}

fn reason(reason: &Reason) -> String {
    let mut about = vec![("File", code(&reason.file))];
    about.extend(reason.place.iter().map(|place| ("Where", escaped(place))));
    about.push(("What mends it", escaped(&reason.mend)));
    format!(
        "<li>\n<h3>{}</h3>\n{}{}</li>\n",
        heading(reason.rank),
        paragraph(&reason.what),
        pairs(&about)
    )
}

/// A kind of reason in a few words.
fn heading(rank: Rank) -> &'static str {
    match rank {
        Rank::EmptyBox => "A box is empty on both sheets",
        Rank::NoSheet => "A file is no order sheet",
        Rank::OtherText => "A sheet is not what its text says",
        Rank::Unbounded => "A wait is not bounded",
        Rank::SilentAlone => "A wait is bounded behind a silent holder alone",
        Rank::NobodyOwns => "Nobody owns the bus, though it is asked for",
        Rank::NotAsOrdered => "The start-up scripts do not do what the sheets order",
        Rank::AboveMost => "A promised wait is above what is allowed",
        Rank::WaitsLonger => "A wait is longer than the sheets promise",
        Rank::EventRefused => "An event of a script is refused",
        Rank::FileRefused => "A file is refused",
        Rank::NotWithoutLimit => "A reserve is said to be without limit, and is not",
    }
}
