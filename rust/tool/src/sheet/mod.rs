//! What two order sheets order, box by box. Document 02, #106.
//!
//! The library says which boxes there are, from which sheet each comes, how long the controllers can
//! wait by them, and what is refused. Here it is put into words: `words` for what is ordered, `lasting`
//! for the boxes that do not last, `waits` for the waits, `warnings` for those without a bound, `faults`
//! for a sheet that is none.

pub mod faults;
pub mod lasting;
pub mod waits;
pub mod warnings;
pub mod words;

use std::fmt;

use gunwaleish::{sheet_box, sheet_wait, Found, Master, Part, Refusal, Section, Wait};

/// One of the six boxes, by the name that the form has for it.
#[derive(Clone, Copy, Debug, PartialEq, Eq)]
pub struct BoxName {
    pub section: Section,
    pub controller: Master,
}

impl BoxName {
    /// In the order in which a sheet has them.
    pub fn all() -> impl Iterator<Item = BoxName> {
        let both = |section| {
            Master::BOTH.into_iter().map(move |controller| BoxName { section, controller })
        };
        Section::ALL.into_iter().flat_map(both)
    }
}

impl fmt::Display for BoxName {
    fn fmt(&self, f: &mut fmt::Formatter) -> fmt::Result {
        write!(f, "{}, controller {}", self.section, self.controller)
    }
}

/// A box of a pair of sheets.
#[derive(Clone, Copy, Debug, PartialEq, Eq)]
pub struct Entry {
    pub name: BoxName,
    /// What is ordered; `None` if the box is empty on both sheets.
    pub found: Option<Found>,
    /// What the house sheet orders there, where the board sheet's counts.
    pub passed_over: Option<u8>,
}

/// A pair of sheets: what they order, the six boxes as a sheet has them.
#[derive(Clone, Debug, PartialEq, Eq)]
pub struct Pair {
    pub entries: Vec<Entry>,
    /// How long each controller can wait, where no box is empty.
    pub waits: Vec<Waiting>,
}

/// How long a controller can wait, on each part.
#[derive(Clone, Copy, Debug, PartialEq, Eq)]
pub struct Waiting {
    pub controller: Master,
    pub on: [(Part, Wait); 2],
}

impl Pair {
    /// Looks up every box. Empty boxes are no refusal here: all of them are to be named.
    pub fn read(board: &[u8], house: &[u8]) -> Result<Pair, Refusal> {
        let entries = BoxName::all().map(|name| entry(name, board, house));
        let waits =
            Master::BOTH.into_iter().filter_map(|master| waiting(master, board, house).ok());
        Ok(Pair { entries: entries.collect::<Result<_, _>>()?, waits: waits.collect() })
    }

    /// What a box orders.
    pub fn value(&self, section: Section, controller: Master) -> Option<u8> {
        let name = BoxName { section, controller };
        self.entries.iter().find(|entry| entry.name == name)?.found.map(|found| found.value)
    }

    /// The boxes that are empty on both sheets.
    pub fn empty(&self) -> impl Iterator<Item = BoxName> + '_ {
        self.entries.iter().filter(|entry| entry.found.is_none()).map(|entry| entry.name)
    }
}

/// A sheet that ticks nothing.
pub const OPEN: [u8; gunwaleish::SHEET_LENGTH] = [2, 0, 0, 0, 0, 2, 0, 0, 0, 0, 2, 0, 0, 0, 0];

fn entry(name: BoxName, board: &[u8], house: &[u8]) -> Result<Entry, Refusal> {
    let found = look_up(name, board, house)?;
    // Beside a board sheet that ticks nothing the house sheet's own box is found.
    let of_house = look_up(name, &OPEN, house)?.filter(|own| Some(own) != found.as_ref());
    Ok(Entry { name, found, passed_over: of_house.map(|own| own.value) })
}

fn look_up(name: BoxName, board: &[u8], house: &[u8]) -> Result<Option<Found>, Refusal> {
    match sheet_box(board, house, name.section, name.controller) {
        Err(Refusal::EmptyBox) => Ok(None),
        found => found.map(Some),
    }
}

fn waiting(controller: Master, board: &[u8], house: &[u8]) -> Result<Waiting, Refusal> {
    let [first, second] =
        Part::BOTH.map(|part| sheet_wait(board, house, controller, part).map(|wait| (part, wait)));
    Ok(Waiting { controller, on: [first?, second?] })
}
