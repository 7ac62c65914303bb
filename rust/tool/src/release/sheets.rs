//! The reasons that stand on the two sheets: empty boxes, what is no sheet, and the waits that they promise.

use gunwaleish::{Found, Master, Section, Sheet, Wait};

use super::{Allowed, Asked, Bundle, Rank, Read, Reason};
use crate::hint::{is_plain, Kind};
use crate::sheet::warnings::{warnings, Warning};
use crate::sheet::{faults, waits, BoxName, Pair, Waiting};
use crate::words::capital;

/// What a sheet that is none is told with.
const A_SHEET: &str = "A sheet has 15 bytes (docs/SHEETS.md); gunwaleish fill makes one of its text: gunwaleish fill TEXT -o FILE.sheet";

/// Why the two files are no pair of sheets: each that is none, with what is seen at its bytes.
pub fn no_sheets(bundle: &Bundle) -> Vec<Reason> {
    let sheets = [(&bundle.board, Sheet::Board), (&bundle.house, Sheet::House)];
    sheets.into_iter().filter_map(|(read, which)| no_sheet(read, which)).collect()
}

fn no_sheet(read: &Read, which: Sheet) -> Option<Reason> {
    let refusal = faults::fault(&read.bytes, which)?;
    let first = faults::seen(&read.bytes, refusal).first().map(|seen| seen.byte);
    // What mends it says what makes a sheet of text.
    let hint = match is_plain(&read.bytes) {
        true => "; it is text".to_string(),
        false => read.hint(Kind::Sheet),
    };
    Some(Reason {
        rank: Rank::NoSheet,
        file: read.name.clone(),
        place: first.map(|byte| format!("byte {byte}")),
        what: format!("It is no {which}: {}{hint}.", faults::with_places(&read.bytes, refusal)),
        mend: A_SHEET.to_string(),
    })
}

/// A reason that is about a box: the sheet that has it, or both if it is empty.
fn about(bundle: &Bundle, rank: Rank, name: BoxName, found: Option<Found>) -> Reason {
    let (board, house) = (&bundle.board.name, &bundle.house.name);
    let file = match found.map(|found| found.sheet) {
        Some(Sheet::Board) => board.clone(),
        Some(Sheet::House) => house.clone(),
        None => format!("{board} and {house}"),
    };
    let place = Some(name.to_string());
    Reason { rank, file, place, what: String::new(), mend: String::new() }
}

/// Each box that is ticked on neither sheet.
pub fn empty_boxes(bundle: &Bundle, pair: &Pair) -> Vec<Reason> {
    let reason = |name: BoxName| {
        Reason {
        what: match name.section {
            Section::Reserve => {
                "It is empty on both sheets, and an empty box is no value; packed as 00h it would be a reserve without limit.".to_string()
            }
            _ => "It is empty on both sheets, and an empty box is no value.".to_string(),
        },
        mend: format!(
            "Tick it on {}, for this board, or on {}, for every board that leaves it open, and fill in its value.",
            bundle.board.name, bundle.house.name
        ),
        ..about(bundle, Rank::EmptyBox, name, None)
    }
    };
    pair.empty().map(reason).collect()
}

/// The reserve box of a controller, and what is found in it.
fn reserve_of(pair: &Pair, controller: Master) -> (BoxName, Option<Found>) {
    let name = BoxName { section: Section::Reserve, controller };
    (name, pair.entries.iter().find(|entry| entry.name == name).and_then(|entry| entry.found))
}

/// True if this controller's reserve is a ticked 0, and was said to be so on purpose.
fn is_allowed(pair: &Pair, asked: &Asked, controller: Master) -> bool {
    asked.without_limit[controller as usize] && pair.value(Section::Reserve, controller) == Some(0)
}

/// The waits that are not bounded, or only behind a silent holder, unless that is on purpose.
pub fn not_bounded(bundle: &Bundle, pair: &Pair, asked: &Asked) -> Vec<Reason> {
    let reason = |warning: Warning| {
        let holder = warning.mend.controller;
        let rank = if warning.grade == 2 { Rank::SilentAlone } else { Rank::Unbounded };
        let (name, found) = reserve_of(pair, holder);
        let mend = format!(
            "{}. If controller {holder} is to keep the bus until it lets go, and on purpose, \
             --without-limit {holder} says so.",
            warning.remedy()
        );
        let what = format!("{}.", capital(&warning.what()));
        Reason { what, mend, ..about(bundle, rank, name, found) }
    };
    let all = warnings(pair).into_iter();
    all.filter(|one| !is_allowed(pair, asked, one.mend.controller)).map(reason).collect()
}

/// The promised waits that are above what is allowed.
pub fn above_most(bundle: &Bundle, pair: &Pair, asked: &Asked) -> Vec<Reason> {
    let reason = |waiting: &Waiting| {
        // What a reserve gives does not go by the part.
        let Wait::Live { ticks } = waiting.on[0].1 else {
            return None;
        };
        let (what, mend) = above(waiting, ticks.into(), asked.most?)?;
        let (name, found) = reserve_of(pair, waiting.controller.partner());
        Some(Reason { what, mend, ..about(bundle, Rank::AboveMost, name, found) })
    };
    pair.waits.iter().filter_map(reason).collect()
}

/// That a promised wait is above the most that is allowed, if it is.
fn above(waiting: &Waiting, ticks: u64, most: u64) -> Option<(String, String)> {
    let controller = waiting.controller;
    let what = format!("Controller {controller} may wait {ticks} ms, and --most allows {most} ms.");
    let mend = match most {
        0 | 1 => {
            "No reserve gives so short a wait: with 1 ms, the shortest, it is 2 ms.".to_string()
        }
        _ => format!(
            "Fill in a reserve of at most {} ms: the wait is the reserve and 1 ms.",
            most - 1
        ),
    };
    (ticks > most).then_some((what, mend))
}

/// The reserves without limit that are there on purpose, with what the partner is promised then.
pub fn allowed(pair: &Pair, asked: &Asked) -> Vec<Allowed> {
    let behind =
        |holder: Master| pair.waits.iter().find(|wait| wait.controller == holder.partner());
    let holders = Master::BOTH.into_iter().filter(|&m| is_allowed(pair, asked, m));
    holders
        .filter_map(|m| Some(Allowed { controller: m, what: waits::in_words(behind(m)?) }))
        .collect()
}

/// The reserves that were said to be without limit, and are not. An option that stays in a command
/// line would let the next accident pass.
pub fn not_without_limit(bundle: &Bundle, pair: &Pair, asked: &Asked) -> Vec<Reason> {
    let reason = |controller: Master| {
        let (name, found) = reserve_of(pair, controller);
        let is = match found.map(|found| found.value) {
            Some(0) => return None,
            Some(value) => format!("{value} ms is ordered"),
            None => "its box is empty, and that is no 0".to_string(),
        };
        let what = format!("--without-limit says that controller {controller}'s reserve is without limit on purpose, but {is}.");
        let mend = format!("Leave out --without-limit for controller {controller}: left in a command line, it would let the next accident pass.");
        Some(Reason { what, mend, ..about(bundle, Rank::NotWithoutLimit, name, found) })
    };
    let said = Master::BOTH.into_iter().filter(|&m| asked.without_limit[m as usize]);
    said.filter_map(reason).collect()
}
