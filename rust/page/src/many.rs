//! What takes more than one file: a shelf with its script, two start-up scripts, the share over many traces.

use gunwaleish::{Part, MOST_TRACE};
use gunwaleish_tool::commands::compose::MOST_TEXT;
use gunwaleish_tool::commands::orders::{tried, How, Wanted};
use gunwaleish_tool::commands::picture::{named, NO_TICK};
use gunwaleish_tool::commands::shelf::{refused, run_both};
use gunwaleish_tool::device::{read_part, Unnamed};
use gunwaleish_tool::files::Input;
use gunwaleish_tool::picture::{self, Source};
use gunwaleish_tool::script::warnings;
use gunwaleish_tool::share::{of_inputs, words as shares};
use gunwaleish_tool::shelf::words;

use crate::fields::{self, cut, Answer, Request};

/// Two texts, with their names at places 2 and 3.
fn two(request: &Request, others: [&str; 2]) -> [Input; 2] {
    let [first, second] = others;
    [
        request.input(0, request.text_or(2, first), MOST_TEXT),
        request.input(1, request.text_or(3, second), MOST_TEXT),
    ]
}

/// The words, the picture, each event on a line, and the warnings.
pub fn shelf(request: &Request) -> Answer {
    let [shelf, script] = two(request, ["shelf", "script"]);
    let shelved = match run_both(&shelf, &script) {
        Ok(shelved) => shelved,
        Err(why) => return Answer::refused(why),
    };
    let source = |input: &Input| Source { name: input.name.clone(), size: input.bytes.len() };
    let told = words::told([&shelf.name, &script.name], &shelved);
    let drawn = picture::shelf::draw(&shelved, &[source(&shelf), source(&script)]);
    let warned = warnings::of_shelved(&script, &shelved).join("\n");
    let answer = Answer::ok(told).and(drawn).and(words::listed(&shelved)).and(warned);
    Answer { refused: refused(&script.name, &shelved).map(|why| (why, None)), ..answer }
}

/// How the orders are tried: on the part at this place, if one is named.
fn how(request: &Request, place: usize) -> Result<How, Unnamed> {
    let part: Option<Part> = match request.text(place) {
        word if word.is_empty() => None,
        word => Some(read_part(&word)?),
    };
    Ok(How { part, strict: false })
}

/// The words, what is said besides, and the warnings.
pub fn orders(request: &Request) -> Answer {
    let [first, second] = two(request, ["script 0", "script 1"]);
    let how = match how(request, 4) {
        Ok(how) => how,
        Err(why) => return Answer::refused(why.to_string()),
    };
    let (made, said) = tried(&first, &second, &Wanted::Groups, how);
    let warned = [&first, &second].map(warnings::of_input).concat().join("\n");
    let refused = made.refused.map(|why| (why, None));
    match made.output {
        Some(text) => {
            Answer { refused, ..Answer::ok(text).and(said.unwrap_or_default()).and(warned) }
        }
        None => Answer { refused, results: vec![] },
    }
}

/// One order, as a trace and as a script.
pub fn order(request: &Request) -> Answer {
    let [first, second] = two(request, ["script 0", "script 1"]);
    let how = match how(request, 4) {
        Ok(how) => how,
        Err(why) => return Answer::refused(why.to_string()),
    };
    let mut all = Answer::default();
    for wanted in [Wanted::Trace, Wanted::Script] {
        let (made, _) = tried(&first, &second, &wanted(request.text(5)), how);
        if let Some(why) = made.refused {
            return Answer::refused(why);
        }
        all.results.extend(made.output);
    }
    all
}

/// The two lines, the table, the picture if there is a tick, and what is said of refused traces.
pub fn share(request: &Request) -> Answer {
    let input = |pair: &[&[u8]]| Input {
        name: fields::named(pair[0]),
        bytes: cut(pair.get(1).copied().unwrap_or_default(), MOST_TRACE).to_vec(),
    };
    let inputs: Vec<Input> = request.arguments.chunks(2).map(input).collect();
    let counted = of_inputs(&inputs);
    let names: Vec<String> = inputs.iter().map(|input| input.name.clone()).collect();
    let table = shares::table(&counted, &|place| names[place].clone());
    let drawn = match counted.totals.ticks() {
        0 => String::new(),
        _ => picture::share::draw(&counted.totals, &named(&names)),
    };
    let mut said = shares::refused(&counted);
    said.extend(drawn.is_empty().then(|| NO_TICK.to_string()));
    let answer = Answer::ok(shares::lines(&counted)).and(table).and(drawn).and(said.join("\n"));
    let why = shares::past(&counted).or_else(|| shares::none_taken(&counted));
    Answer { refused: why.map(|why| (why, None)), ..answer }
}
