//! Traces and scripts: written, listed, told, drawn, held against each other, imported.

use std::fmt::Write;
use std::rc::Rc;

use gunwaleish::{MOST_SAMPLES, MOST_TRACE};
use gunwaleish_tool::commands::compose::{composed_of, MOST_TEXT};
use gunwaleish_tool::commands::picture::{drawn, Window};
use gunwaleish_tool::commands::{convert, decompose, diff, explain, import, list, wave};
use gunwaleish_tool::diff::{words, Difference};
use gunwaleish_tool::each::{refused, Made};
use gunwaleish_tool::files::Input;
use gunwaleish_tool::hint::{hint_of, looks_like, Kind};
use gunwaleish_tool::json::Value;
use gunwaleish_tool::picture::{drawn_in_page, style_in_page, Spot, Spots};
use gunwaleish_tool::script::warnings;
use gunwaleish_tool::svg::Tenths;
use gunwaleish_tool::table::Form;
use gunwaleish_tool::{device, summary, wrap};

use crate::fields::{Answer, Request};
use crate::followed::Followed;

/// The tool's words about a file without a name: each line begins with what follows the name.
pub fn unnamed(name: &str, text: &str) -> String {
    if !name.is_empty() {
        return text.to_string();
    }
    let bare = |line: &str| {
        let rest = line.strip_prefix(", ").or(line.strip_prefix(": "));
        rest.unwrap_or(line).to_string()
    };
    text.split('\n').map(bare).collect::<Vec<_>>().join("\n")
}

/// What a command of the tool made of a file.
pub fn answer(name: &str, made: Made) -> Answer {
    let refused = made.refused.map(|why| (unnamed(name, &why), None));
    Answer { refused, results: made.output.into_iter().collect() }
}

/// The request's first argument as a trace, with the name at this place.
fn trace(request: &Request, name: usize) -> Input {
    request.input(0, request.text(name), MOST_TRACE)
}

/// The story of the request's trace, or the answer that refuses it.
pub fn story(request: &Request, name: usize) -> Result<Rc<Followed>, Answer> {
    let input = trace(request, name);
    Followed::of(&input.bytes)
        .map_err(|refusal| Answer::refused(unnamed(&input.name, &refused(&input, refusal))))
}

/// What a file is, in a word, and what is done with it.
pub fn what(request: &Request) -> Answer {
    let (name, bytes) = (request.text(0), crate::fields::cut(request.bytes(1), MOST_TEXT));
    let kind = looks_like(&name, bytes);
    let hint = match kind {
        // What is old is told with its refusal alone.
        Some(Kind::OldTrace) => gunwaleish::run(bytes).err().map_or(String::new(), |refusal| {
            let input = Input { name: String::new(), bytes: bytes.to_vec() };
            unnamed("", &refused(&input, refusal))
        }),
        kind => {
            let other = if kind == Some(Kind::Empty) { Kind::Trace } else { Kind::Empty };
            let hint = hint_of(&name, bytes, other);
            hint.strip_prefix("; ").unwrap_or(&hint).to_string()
        }
    };
    Answer::ok(kind.map_or("unknown", word)).and(hint)
}

fn word(kind: Kind) -> &'static str {
    match kind {
        Kind::Empty => "empty",
        Kind::Trace => "trace",
        Kind::OldTrace => "old trace",
        Kind::Stream => "stream",
        Kind::Script => "script",
        Kind::ShelfScript => "shelf script",
        Kind::Shelf => "shelf",
        Kind::Sheet => "sheet",
        Kind::SheetText => "sheet text",
        Kind::Capture => "capture",
        Kind::Totals => "totals",
        Kind::Listing => "listing",
        Kind::Zip => "zip",
        Kind::Gzip => "gzip",
        Kind::Vcd => "vcd",
        Kind::Csv => "csv",
        Kind::Picture => "picture",
        Kind::Utf16 => "utf16",
        Kind::Text => "text",
    }
}

/// A trace, the warnings, and the line of each event.
pub fn compose(request: &Request) -> Answer {
    let input = request.input(0, request.text(1), MOST_TEXT);
    match composed_of(&input) {
        Err(mistake) => {
            let why = unnamed(&input.name, &mistake.why);
            Answer { refused: Some((why, mistake.line)), results: vec![] }
        }
        Ok((script, trace)) => {
            let name =
                if input.name.is_empty() { String::new() } else { format!("{}, ", input.name) };
            let warned =
                warnings::of_script(&script).into_iter().map(|text| format!("{name}{text}"));
            let warned = warned.collect::<Vec<_>>().join("\n");
            Answer::ok(trace).and(warned).and(Value::from(script.lines).to_string())
        }
    }
}

pub fn script(request: &Request) -> Answer {
    let input = trace(request, 1);
    answer(&input.name, decompose::decompose(&input))
}

pub fn listing(request: &Request) -> Answer {
    let input = trace(request, 1);
    answer(&input.name, list::list(&input))
}

/// In lines of a width, 160 letters unless another is asked for.
pub fn explained(request: &Request) -> Answer {
    let input = trace(request, 1);
    let width = request.text(2).parse().unwrap_or(wrap::WIDTH).clamp(80, 1000);
    let mut answer = answer(&input.name, explain::explain_within(&input, width));
    if input.name.is_empty() {
        // The first line alone has the name.
        answer.results.iter_mut().for_each(|text| _ = text.drain(..2.min(text.len())));
    }
    answer
}

/// The same as rows for other programs.
pub fn rows(request: &Request) -> Answer {
    let input = trace(request, 2);
    let form = if request.bytes(1) == b"csv" { Form::Csv } else { Form::Json };
    answer(&input.name, explain::explain_as(&input, form))
}

/// The picture, what is told of the run, and where each event stands in the picture.
pub fn picture(request: &Request) -> Answer {
    let input = request.input(0, request.text_or(1, "trace"), MOST_TRACE);
    let tick = |place| request.text(place).parse().ok();
    match drawn(&input, Window { from: tick(2), to: tick(3) }) {
        Err(why) => Answer::refused(why),
        Ok((story, picture, spots)) => {
            let told = summary::in_words(&story).join("\n");
            Answer::ok(picture).and(told).and(in_numbers(&spots))
        }
    }
}

/// The same without its words, as the page of a release has it: three strips at the most. Then the style of such pictures.
pub fn sketch(request: &Request) -> Answer {
    let story = match story(request, 2) {
        Ok(story) => story,
        Err(refused) => return refused,
    };
    let (picture, spots) = drawn_in_page(&story, &request.text(1));
    let told = summary::in_words(&story).join("\n");
    Answer::ok(picture).and(told).and(in_numbers(&spots)).and(style_in_page())
}

/// Where the events stand, a strip each: its first event, its top and its foot, and the x of each event on it.
fn in_numbers(spots: &Spots) -> String {
    let strip = |spot: &Spot| {
        let (from, [top, foot]) = (spot.from, spot.reach.map(Tenths));
        let mut text = format!("{{\"from\":{from},\"top\":{top},\"foot\":{foot},\"x\":[");
        for (place, x) in spot.x.iter().enumerate() {
            let _ = write!(text, "{}{}", if place == 0 { "" } else { "," }, Tenths(*x));
        }
        text + "]}"
    };
    format!("[{}]", spots.iter().map(strip).collect::<Vec<_>>().join(","))
}

pub fn vcd(request: &Request) -> Answer {
    let input = trace(request, 1);
    answer(&input.name, wave::wave(&input))
}

pub fn converted(request: &Request) -> Answer {
    let input = trace(request, 1);
    answer(&input.name, convert::convert(&input))
}

/// Two runs, each a trace or a script: in words, and whether they are alike.
pub fn compared(request: &Request) -> Answer {
    let side = |bytes, name, other: &str| {
        diff::side(&request.input(bytes, request.text_or(name, other), MOST_TEXT))
    };
    let (a, b) = match (side(0, 1, "A"), side(2, 3, "B")) {
        (Ok(a), Ok(b)) => (a, b),
        (Err(why), _) | (_, Err(why)) => return Answer::refused(why),
    };
    let difference = Difference::between(&a, &b);
    let alike = if difference.is_none() { "alike" } else { "not alike" };
    Answer::ok(words::told(&a, &b, &difference, wrap::WIDTH)).and(alike)
}

/// A capture: its trace, what was seen in it, and its script.
pub fn imported(request: &Request) -> Answer {
    let named = |place| match request.text(place) {
        word if word.is_empty() => vec![],
        word => vec![word],
    };
    let device = match device::device_of(import::COMMAND.name, &named(1), &[], &named(2)) {
        Ok(device) => device,
        Err(why) => return Answer::refused(why.to_string()),
    };
    let input = request.input(0, request.text(3), MOST_SAMPLES);
    let wanted = import::Wanted { device, script: false, empty: false };
    let (made, seen) = import::import(&input, wanted);
    let answer = answer(&input.name, made);
    if answer.refused.is_some() {
        return answer;
    }
    let (script, _) = import::import(&input, import::Wanted { script: true, ..wanted });
    let seen = unnamed(&input.name, &seen.unwrap_or_default());
    answer.and(seen).and(script.output.unwrap_or_default())
}
