//! Why a sheet is none: which of the two, with what number, and at which bytes.
//!
//! The library gives one number for both sheets, so it is asked about each by itself. What it
//! refuses, the layout of a sheet shows at a byte.

use gunwaleish::{sheet_box, Master, Refusal, Section, Sheet};

use super::{BoxName, OPEN};

/// Why one sheet is refused by itself, if it is: beside a sheet that ticks nothing.
pub fn fault(sheet: &[u8], which: Sheet) -> Option<Refusal> {
    let (board, house) = match which {
        Sheet::Board => (sheet, &OPEN[..]),
        Sheet::House => (&OPEN[..], sheet),
    };
    match sheet_box(board, house, Section::Reserve, Master::Zero) {
        Ok(_) | Err(Refusal::EmptyBox) => None,
        Err(refusal) => Some(refusal),
    }
}

/// A refused sheet of a pair in words: which it is, the number, and what is seen at which bytes.
pub fn in_words(name: &str, which: Sheet, sheet: &[u8], refusal: Refusal) -> String {
    format!("{name}, the {which}: {}", with_places(sheet, refusal))
}

/// The number of a refused sheet, its words, and what is seen at which bytes.
pub fn with_places(sheet: &[u8], refusal: Refusal) -> String {
    let seen: Vec<String> = seen(sheet, refusal).iter().map(Seen::to_string).collect();
    let place = if seen.is_empty() { String::new() } else { format!(" ({})", seen.join("; ")) };
    format!("{refusal}{place}")
}

/// What is wrong at a byte, counted from 0.
#[derive(Clone, Debug, PartialEq, Eq)]
pub struct Seen {
    pub byte: usize,
    what: String,
}

impl std::fmt::Display for Seen {
    fn fmt(&self, f: &mut std::fmt::Formatter) -> std::fmt::Result {
        write!(f, "byte {}{}", self.byte, self.what)
    }
}

/// All bytes that a sheet is refused for, not only the first.
pub fn seen(sheet: &[u8], refusal: Refusal) -> Vec<Seen> {
    match refusal {
        Refusal::SheetCut => {
            let byte = sheet.len();
            vec![Seen { byte, what: format!(", {}, is missing", name_of(byte)) }]
        }
        Refusal::BytesAfterSheet => {
            vec![Seen { byte: OPEN.len(), what: " is past its end".to_string() }]
        }
        Refusal::WrongBoxCount => {
            (0..OPEN.len()).step_by(5).filter_map(|at| count(sheet, at)).collect()
        }
        Refusal::BadBox => BoxName::all().flat_map(|name| box_of(sheet, name)).collect(),
        _ => vec![],
    }
}

/// The place at which a box starts: that of its tick.
pub fn place(name: BoxName) -> usize {
    5 * usize::from(name.section.number()) + 1 + 2 * usize::from(name.controller.number())
}

/// What stands at a byte of a sheet.
fn name_of(byte: usize) -> String {
    let is = |name: &BoxName, after: usize| place(*name) + after == byte;
    if let Some(name) = BoxName::all().find(|name| is(name, 0)) {
        return format!("the tick of \"{name}\"");
    }
    if let Some(name) = BoxName::all().find(|name| is(name, 1)) {
        return format!("the value of \"{name}\"");
    }
    let section =
        Section::ALL.into_iter().find(|section| 5 * usize::from(section.number()) == byte);
    section.map_or(String::new(), |section| format!("the count of the boxes \"{section}\""))
}

fn byte_at(sheet: &[u8], byte: usize) -> u8 {
    sheet.get(byte).copied().unwrap_or(0)
}

fn count(sheet: &[u8], byte: usize) -> Option<Seen> {
    let found = byte_at(sheet, byte);
    let what = format!(", {}, is {found}, not 2", name_of(byte));
    (found != 2).then_some(Seen { byte, what })
}

/// What is wrong with the tick of a box, and with its value.
fn box_of(sheet: &[u8], name: BoxName) -> Vec<Seen> {
    let byte = place(name);
    let (tick, value) = (byte_at(sheet, byte), byte_at(sheet, byte + 1));
    let out_of_range = |byte: usize, found: u8| {
        let what = format!(", {}, is {found}, not 0 or 1", name_of(byte));
        Seen { byte, what }
    };
    let mut all = vec![];
    if tick > 1 {
        all.push(out_of_range(byte, tick));
    }
    if tick == 0 && value != 0 {
        let what = format!(", {}, is {value}, and the box is not ticked", name_of(byte + 1));
        all.push(Seen { byte: byte + 1, what });
    } else if name.section != Section::Reserve && value > 1 {
        all.push(out_of_range(byte + 1, value));
    }
    all
}
