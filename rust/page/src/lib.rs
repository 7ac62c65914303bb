//! The tool for a page in a browser: bytes in, text, SVG or JSON out. Every word and picture is the tool's, and every
//! judgement the proved library's.
//!
//! The same code is an ordinary Rust library, `ask`, which the tests call, and a module (wasm) whose exports are in
//! `wasm`: `memory`; `input(n) -> address`, a room for a request of n bytes, or 0 if there is no such room; `ask(n) ->
//! length`, which answers the request of n bytes in the room; `output() -> address` of the answer. It has no imports.
//!
//! ```
//! use gunwaleish_page::ask;
//! use gunwaleish_page::fields::join;
//!
//! let trace: &[u8] = &[4, 0, 0, 0, 0, 0, 0, 1, 0];
//! let listed = ask(&join(&[b"listing", trace]));
//! assert!(String::from_utf8_lossy(&listed).contains("70 0000\n"));
//! ```
//!
#![doc = include_str!("../REQUESTS.md")]

pub mod fields;
mod followed;
pub mod image;
mod many;
mod releases;
pub mod samples;
mod sheets;
mod state;
mod told;
mod traces;
#[cfg(target_arch = "wasm32")]
mod wasm;

use gunwaleish::library_identity;
use gunwaleish_tool::json::{object, Value};
use gunwaleish_tool::script::forms::{Argument, Form, FORMS};
use gunwaleish_tool::script::shown;

use fields::{Answer, Request};

/// What answers a request.
type Answers = fn(&Request) -> Answer;

/// Every request by its name.
pub const REQUESTS: [(&str, Answers); 29] = [
    ("identity", identity),
    ("what", traces::what),
    ("compose", traces::compose),
    ("script", traces::script),
    ("listing", traces::listing),
    ("explain", traces::explained),
    ("rows", traces::rows),
    ("story", told::told),
    ("picture", traces::picture),
    ("sketch", traces::sketch),
    ("vcd", traces::vcd),
    ("state", state::state),
    ("states", state::states),
    ("convert", traces::converted),
    ("diff", traces::compared),
    ("import", traces::imported),
    ("sheet", sheets::told),
    ("start", sheets::start),
    ("fill", sheets::filled),
    ("sheet_text", sheets::text),
    ("boxes", sheets::boxes),
    ("release", releases::judged),
    ("shelf", many::shelf),
    ("orders", many::orders),
    ("order", many::order),
    ("share", many::share),
    ("words", words),
    ("samples", samples::samples),
    ("sample", samples::bytes),
];

/// The answer to a request. Whatever the bytes are, there is one.
pub fn ask(request: &[u8]) -> Vec<u8> {
    let Some(request) = Request::read(request) else {
        return Answer::refused("the request is no sequence of fields with a name").to_bytes();
    };
    match REQUESTS.iter().find(|(name, _)| name.as_bytes() == request.name) {
        Some((_, answers)) => answers(&request).to_bytes(),
        None => {
            let name = shown(&fields::named(request.name));
            Answer::refused(format!("there is no request '{name}'")).to_bytes()
        }
    }
}

/// The tool, and which library answers.
fn identity(_: &Request) -> Answer {
    let library = library_identity();
    Answer::ok(format!(
        "tool gunwaleish {}\nlibrary commit {}\nkit {}\nmachine {}\n",
        env!("CARGO_PKG_VERSION"),
        library.commit,
        library.kit,
        library.machine
    ))
}

/// The lines of a script: word, an example, what it says, and what can stand after the word.
fn words(_: &Request) -> Answer {
    let then = |argument: &Argument| {
        let choices =
            argument.choices().into_iter().map(|(put, says)| Value::from(vec![put, says]));
        Value::from(choices.collect::<Vec<_>>())
    };
    let line = |form: &Form| {
        object([
            ("word", form.word.into()),
            ("usage", form.example.into()),
            ("help", form.says.into()),
            ("then", form.arguments.iter().map(then).collect::<Vec<_>>().into()),
        ])
    };
    Answer::ok(Value::from(FORMS.iter().map(line).collect::<Vec<_>>()).to_string())
}
