//! Order sheets: what two of them order and promise, the events of a start, and the form of one.

use gunwaleish::{Part, Section, Wait, MOST_TRACE};
use gunwaleish_tool::commands::fill;
use gunwaleish_tool::commands::sheet::{self, one, Wanted};
use gunwaleish_tool::device::device_of;
use gunwaleish_tool::files::Input;
use gunwaleish_tool::form::{choices, EMPTY, RESERVES};
use gunwaleish_tool::json::{object, Value};
use gunwaleish_tool::release::page::waits::proved_by;
use gunwaleish_tool::sheet::warnings::warnings;
use gunwaleish_tool::sheet::{lasting, waits, words, BoxName, Pair, Waiting};

use crate::fields::{Answer, Request};
use crate::traces::{answer, unnamed};

/// Both sheets, with their names at these places.
fn pair(request: &Request, board: usize, house: usize) -> [Input; 2] {
    // More than a sheet has, by which another file is known.
    let input =
        |place, name, other: &str| request.input(place, request.text_or(name, other), MOST_TRACE);
    [input(0, board, "board sheet"), input(1, house, "house sheet")]
}

/// The words, and the same as JSON. A pair that is not complete is told as well: that is the question.
pub fn told(request: &Request) -> Answer {
    let [board, house] = pair(request, 2, 3);
    let made = sheet::sheet(&board, &house, Wanted::Words);
    let Ok(pair) = Pair::read(&board.bytes, &house.bytes) else {
        return answer(&board.name, made);
    };
    let why = made.refused.unwrap_or_default();
    Answer::ok(made.output.unwrap_or_default()).and(as_json(&pair).to_string()).and(why)
}

/// What is ordered, promised and warned of.
pub fn as_json(pair: &Pair) -> Value {
    let boxes: Vec<Value> = pair
        .entries
        .iter()
        .map(|entry| {
            let from = entry.found.map_or("neither", |found| match found.sheet {
                gunwaleish::Sheet::Board => "board",
                gunwaleish::Sheet::House => "house",
            });
            object([
                ("name", entry.name.to_string().into()),
                ("section", entry.name.section.name().into()),
                ("controller", entry.name.controller.number().into()),
                ("value", entry.found.map(|found| found.value).into()),
                ("from", from.into()),
                ("words", words::meaning(pair, entry).into()),
            ])
        })
        .collect();
    let warned: Vec<String> = warnings(pair).iter().map(ToString::to_string).collect();
    let holds = waits::are_bounded(pair).then_some(waits::HOLDS);
    object([
        ("complete", (pair.empty().count() == 0).into()),
        ("boxes", boxes.into()),
        ("waits", pair.waits.iter().map(promise).collect::<Vec<_>>().into()),
        ("warnings", warned.into()),
        ("holds", holds.into()),
        ("lasting", lasting::told(pair).into()),
    ])
}

/// How long a controller can wait, and what proves it.
fn promise(waiting: &Waiting) -> Value {
    let [(_, wait), _] = waiting.on;
    let ticks = |(part, wait): (Part, Wait)| {
        let ticks = wait.ticks().map_or("without limit".to_string(), |ticks| ticks.to_string());
        Value::from(vec![part.to_string(), ticks])
    };
    let statements = proved_by(wait).iter().map(|statement| {
        object([
            ("name", statement.name.into()),
            ("says", statement.says.into()),
            ("file", format!("crates/{}", statement.file).into()),
        ])
    });
    let first = proved_by(wait).first();
    object([
        ("controller", waiting.controller.number().into()),
        ("grade", wait.grade().into()),
        ("words", waits::in_words(waiting).into()),
        ("ticks", waiting.on.map(ticks).to_vec().into()),
        ("statement", first.map(|statement| statement.name).into()),
        ("says", first.map(|statement| statement.says).into()),
        ("statements", statements.collect::<Vec<_>>().into()),
    ])
}

/// The events that start the shelf: as a trace, as a script, and each controller's as a script of its own.
pub fn start(request: &Request) -> Answer {
    let [board, house] = pair(request, 4, 5);
    let device = match device_of(sheet::COMMAND.name, &[request.text(2)], &[], &[request.text(3)]) {
        Ok(device) => device,
        Err(why) => return Answer::refused(why.to_string()),
    };
    let [first, second] = gunwaleish::Master::BOTH;
    let wanted = [
        Wanted::Trace(device),
        Wanted::Script(device),
        Wanted::ScriptOf(device, first),
        Wanted::ScriptOf(device, second),
    ];
    let mut all = Answer::default();
    for wanted in wanted {
        let made = sheet::sheet(&board, &house, wanted);
        if made.refused.is_some() {
            return answer(&board.name, made);
        }
        all.results.extend(made.output);
    }
    all
}

/// A sheet of its text.
pub fn filled(request: &Request) -> Answer {
    let input = request.input(0, request.text(1), fill::MOST_TEXT);
    match fill::filled(&input) {
        Ok(sheet) => Answer::ok(sheet),
        Err(mistake) => {
            let why = unnamed(&input.name, &mistake.why);
            Answer { refused: Some((why, mistake.line)), results: vec![] }
        }
    }
}

/// The text of a sheet.
pub fn text(request: &Request) -> Answer {
    let input = request.input(0, request.text(1), MOST_TRACE);
    answer(&input.name, one(&input))
}

/// The form: each box with what can be filled in.
pub fn boxes(_: &Request) -> Answer {
    let all: Vec<Value> =
        BoxName::all().zip(1..).map(|(name, number)| form_of(name, number)).collect();
    Answer::ok(Value::from(all).to_string())
}

fn form_of(name: BoxName, number: usize) -> Value {
    let ms = name.section == Section::Reserve;
    let all = choices(name.section);
    let help: Vec<String> = all.iter().map(|(value, says)| format!("{value}: {says}.")).collect();
    // A range is no value to choose.
    let single = all.iter().filter(|(value, _)| *value != RESERVES);
    let single: Vec<Value> =
        single.map(|(value, says)| Value::from(vec![value.to_string(), says.clone()])).collect();
    object([
        ("number", number.into()),
        ("name", name.to_string().into()),
        ("section", name.section.name().into()),
        ("controller", name.controller.number().into()),
        ("kind", if ms { "ms" } else { "choice" }.into()),
        ("unit", if ms { "ms" } else { "" }.into()),
        ("range", if ms { RESERVES } else { "" }.into()),
        ("choices", single.into()),
        ("empty", EMPTY.into()),
        ("help", help.join(" ").into()),
    ])
}
