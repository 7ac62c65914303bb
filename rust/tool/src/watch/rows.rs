//! What is found, as rows for other programs: `docs/FORMATS.md` has the columns.

use gunwaleish::{Check, Master};

use super::finding::{Finding, Found};
use super::words;
use crate::json::Value;
use crate::samples::rate::micros_of;
use crate::table::Columns;

pub const COLUMNS: Columns = &[
    "capture",
    "what",
    "sample",
    "microseconds",
    "controller",
    "register",
    "heard",
    "expected",
    "set",
    "clear",
    "promised",
    "said",
];

/// The row of something that was found in a capture of this name.
pub fn row(name: &str, found: &Found) -> Vec<Value> {
    let (what, master, check, promised) = match &found.finding {
        Finding::Difference(check) => ("difference", Some(check.master), Some(check), None),
        Finding::Overtaken(check) => ("overtaken", Some(check.master), Some(check), None),
        Finding::Fault { buses } => {
            let only = if let [(bus, _)] = buses[..] { Some(bus) } else { None };
            ("fault", only, None, None)
        }
        Finding::LongWait { master, promised } => ("wait", Some(*master), None, Some(*promised)),
        Finding::Taken { .. } => ("taken", None, None, None),
    };
    let bits = |of: fn(&Check) -> u8| -> Value {
        let names = check.map(|check| names(check, of(check)));
        names.filter(|names| !names.is_empty()).into()
    };
    vec![
        name.into(),
        what.into(),
        found.sample.into(),
        micros_of(found.sample, found.rate).into(),
        master.map(Master::number).into(),
        check.map(|check| check.register.to_string()).into(),
        check.map(|check| format!("{:02X}", check.heard)).into(),
        check.map(|check| format!("{:02X}", check.expected)).into(),
        bits(|check| check.heard & !check.expected),
        bits(|check| !check.heard & check.expected),
        promised.into(),
        words::said(&found.finding).into(),
    ]
}

/// The names of bits, with spaces between them.
fn names(check: &Check, differing: u8) -> String {
    let said = words::bits(check.register, check.heard, differing);
    let name = |text: &String| {
        let name = text.split_once(" (").or(text.split_once(" is ")).map_or("", |(name, _)| name);
        name.replace(' ', "_")
    };
    said.iter().map(name).collect::<Vec<_>>().join(" ")
}
