//! The verdict, in words and not in colour alone; what was let pass on purpose, in red beside it; and what it
//! rests on.

use super::html::{code, pairs, paragraph};
use crate::release::words::{on_purpose, promises};
use crate::release::{Allowed, Asked, Bundle, Examined};
use crate::svg::escaped;
use crate::words::count;

/// What the page is called.
pub fn title(examined: &Examined) -> String {
    format!("{}{}: {}", headline(examined), on_purpose(&examined.allowed), name(&examined.bundle))
}

pub fn written(examined: &Examined) -> String {
    let look = if examined.is_released() { "good" } else { "bad" };
    let verdict = format!(
        "<div class=\"verdict {look}\">\n<h1>{}</h1>\n{}</div>\n",
        headline(examined),
        paragraph(&why(examined))
    );
    let about = [
        ("Bundle", code(&name(&examined.bundle))),
        ("Examined", escaped(&examined_files(examined))),
        ("Not there", escaped(&not_there(&examined.bundle))),
        ("Longest wait allowed", escaped(&most(&examined.asked))),
        ("Let pass on purpose", escaped(without_limit(&examined.asked))),
    ];
    format!(
        "<header>\n<div class=\"verdicts\">\n{verdict}{}</div>\n{}</header>\n",
        allowed(examined),
        pairs(&about)
    )
}

fn headline(examined: &Examined) -> &'static str {
    match examined.is_released() {
        true => "Released",
        false => "Not released",
    }
}

fn why(examined: &Examined) -> String {
    match (examined.reasons.len(), examined.allowed.is_empty()) {
        (0, true) => format!("Nothing speaks against it: {}.", promises(examined)),
        (0, false) => format!(
            "It is released{}. Nothing else speaks against it: {}.",
            on_purpose(&examined.allowed),
            promises(examined)
        ),
        (1, _) => "One reason speaks against it. What would mend it stands below.".to_string(),
        (reasons, _) => format!(
            "{reasons} reasons speak against it, the worst first. What would mend each stands below."
        ),
    }
}

/// The reserves that were let pass without limit.
fn allowed(examined: &Examined) -> String {
    let one = |allowed: &Allowed| {
        format!(
            "<p><strong>Controller {}'s reserve.</strong> {}</p>\n",
            allowed.controller,
            escaped(&allowed.what)
        )
    };
    let all: String = examined.allowed.iter().map(one).collect();
    match all.is_empty() {
        true => all,
        false => format!(
            "<div class=\"verdict bad\">\n<h2>Without limit, on purpose</h2>\n{all}</div>\n"
        ),
    }
}

/// The folder, or both sheets.
fn name(bundle: &Bundle) -> String {
    let sheets = || format!("{} and {}", bundle.board.name, bundle.house.name);
    bundle.folder.clone().unwrap_or_else(sheets)
}

/// What there was, in words.
fn examined_files(examined: &Examined) -> String {
    let bundle = &examined.bundle;
    let mut parts = vec!["both order sheets".to_string()];
    parts.extend(match bundle.texts.iter().flatten().count() {
        0 => None,
        1 => Some("the text of one of them".to_string()),
        _ => Some("the texts of both".to_string()),
    });
    if bundle.scripts.is_some() {
        parts.push(match &examined.orders {
            Some(orders) => {
                format!("both start-up scripts, in {}", count(orders.endings.len(), "order"))
            }
            None => "both start-up scripts, which cannot be tried".to_string(),
        });
    }
    if let Some(shelf) = &bundle.shelf {
        parts.push(format!("a shelf and {} for it", count(shelf.scripts.len(), "script")));
    }
    if !bundle.traces.is_empty() {
        parts.push(format!("{} of the bench", count(bundle.traces.len(), "trace")));
    }
    parts.join("; ")
}

/// What was not there, and so bears on nothing here.
fn not_there(bundle: &Bundle) -> String {
    let parts = [
        (bundle.scripts.is_none(), "start-up scripts"),
        (bundle.shelf.is_none(), "a shelf"),
        (bundle.traces.is_empty(), "traces of the bench"),
    ];
    let missing: Vec<&str> = parts.into_iter().filter(|part| part.0).map(|part| part.1).collect();
    match missing.is_empty() {
        true => "nothing".to_string(),
        false => format!("{}, so nothing is said of them", missing.join(", ")),
    }
}

fn most(asked: &Asked) -> String {
    asked.most.map_or("any that is bounded".to_string(), |most| format!("{most} ms"))
}

fn without_limit(asked: &Asked) -> &'static str {
    match asked.without_limit {
        [false, false] => "nothing",
        [true, false] => "controller 0's reserve without limit",
        [false, true] => "controller 1's reserve without limit",
        [true, true] => "both controllers' reserves without limit",
    }
}
