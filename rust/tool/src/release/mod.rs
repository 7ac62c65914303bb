//! Is this bundle safe? One verdict over what a release folder holds.
//!
//! `find` has the files, `judge` the reasons, out of `sheets`, `orders` and `bench`, and `words` the text
//! on a terminal. Every judgement is the library's: the boxes and the waits are those of `sheet_box` and `sheet_wait`, an order of the two
//! start-up scripts ends as `list_orders` says, and a trace or a place of a shelf waits as long as its
//! proved `Totals` tell. Here they are put side by side and into words.

pub mod bench;
pub mod find;
pub mod judge;
pub mod orders;
pub mod page;
pub mod sheets;
pub mod texts;
pub mod words;

use std::fmt;
use std::path::PathBuf;

use gunwaleish::{Master, Part, Refusal, Totals};

use crate::hint::{hint_of, Kind};
use crate::sheet::Pair;
use crate::startup::{Ending, Group, Scripts};

/// A file that was read.
#[derive(Clone, Debug, PartialEq, Eq)]
pub struct Read {
    /// As it was given, or as it was found in the folder, with the folder before it.
    pub path: PathBuf,
    /// What messages and the page call it: the path as text.
    pub name: String,
    /// Its bytes; of a file that is too long for what it stands for, the first ones alone.
    pub bytes: Vec<u8>,
    /// All its bytes, counted.
    pub size: u64,
    /// When it was last changed, in seconds since 1970, if the system tells.
    pub changed: Option<u64>,
    /// The SHA-256 of all its bytes, 64 hex digits.
    pub sha256: String,
}

impl Read {
    /// What it looks like, where it is no file of this kind, as behind every refusal.
    pub fn hint(&self, wanted: Kind) -> String {
        hint_of(&self.name, &self.bytes, wanted)
    }
}

/// A shelf and the scripts for it.
#[derive(Clone, Debug, PartialEq, Eq)]
pub struct ShelfRead {
    pub shelf: Read,
    pub scripts: Vec<Read>,
}

/// What there was to examine.
#[derive(Clone, Debug, PartialEq, Eq)]
pub struct Bundle {
    /// The folder, or `None` if the files were named one by one.
    pub folder: Option<String>,
    pub board: Read,
    pub house: Read,
    /// The text of each sheet, the board sheet's first, if it stands beside it.
    pub texts: [Option<Read>; 2],
    /// Both start-up scripts, controller 0's first.
    pub scripts: Option<[Read; 2]>,
    pub shelf: Option<ShelfRead>,
    /// The traces of the bench, sorted by name.
    pub traces: Vec<Read>,
    /// Files of the folder that were seen and not read, by name.
    pub others: Vec<String>,
}

impl Bundle {
    /// Every file that was read, in the order in which they are told.
    pub fn files(&self) -> impl Iterator<Item = &Read> {
        let sheets = [&self.board, &self.house].into_iter();
        let shelf =
            self.shelf.iter().flat_map(|read| [&read.shelf].into_iter().chain(&read.scripts));
        let sheets = sheets.chain(self.texts.iter().flatten());
        sheets.chain(self.scripts.iter().flatten()).chain(shelf).chain(&self.traces)
    }
}

/// What the person who releases asks for.
#[derive(Clone, Copy, Debug, Default, PartialEq, Eq)]
pub struct Asked {
    /// The longest promised wait that is allowed, in ms.
    pub most: Option<u64>,
    /// The controllers whose reserve is without limit on purpose, controller 0's first.
    pub without_limit: [bool; 2],
}

/// How bad a reason is; the worst comes first.
#[derive(Clone, Copy, Debug, PartialEq, Eq, PartialOrd, Ord)]
pub enum Rank {
    /// A box is empty on both sheets: the incident.
    EmptyBox,
    /// A file is no sheet.
    NoSheet,
    /// The text beside a sheet says something else than the sheet.
    OtherText,
    /// A wait is not bounded: grade 3.
    Unbounded,
    /// A wait is bounded behind a silent holder alone: grade 2.
    SilentAlone,
    /// After an order of the start-up scripts nobody owns the bus, though somebody asks.
    NobodyOwns,
    /// The start-up scripts leave another reserve, priority or idle timer than the sheets order.
    NotAsOrdered,
    /// A promised wait is above what is allowed.
    AboveMost,
    /// A trace, or a place of the shelf, waits longer than the sheets promise.
    WaitsLonger,
    /// An event of a script is refused, in an order or on the shelf.
    EventRefused,
    /// A script, a shelf or a trace is refused.
    FileRefused,
    /// A reserve was said to be without limit on purpose, and is not.
    NotWithoutLimit,
}

/// Why a bundle is not released.
#[derive(Clone, Debug, PartialEq, Eq)]
pub struct Reason {
    pub rank: Rank,
    /// The file, by its name, or both sheets or scripts joined by " and ".
    pub file: String,
    /// The box, the line, the order's pattern or the event that it is about, if one is.
    pub place: Option<String>,
    /// What is so, a sentence.
    pub what: String,
    /// What would mend it, a sentence.
    pub mend: String,
}

/// A reserve without limit that was allowed on purpose.
#[derive(Clone, Debug, PartialEq, Eq)]
pub struct Allowed {
    /// Whose reserve it is.
    pub controller: Master,
    /// What its partner is promised then, a sentence.
    pub what: String,
}

/// All orders of the two start-up scripts, and how they end.
#[derive(Clone, Debug, PartialEq, Eq)]
pub struct Orders {
    pub scripts: Scripts,
    pub endings: Vec<Ending>,
    pub groups: Vec<Group>,
    /// The order that a reason is about, the worst one's; else the first. Its place in `endings`.
    pub worst: usize,
}

/// A place of the shelf.
#[derive(Clone, Copy, Debug, PartialEq, Eq)]
pub struct Spot {
    pub place: usize,
    pub address: u8,
}

impl fmt::Display for Spot {
    fn fmt(&self, f: &mut fmt::Formatter) -> fmt::Result {
        write!(f, "place {}, address {:02X}h", self.place, self.address)
    }
}

/// One trace, or what one script does at one place of the shelf, by its proved totals.
#[derive(Clone, Debug, PartialEq, Eq)]
pub struct Bench {
    /// The trace's file, or the shelf script's.
    pub file: String,
    /// The place of the shelf, of a script for one.
    pub spot: Option<Spot>,
    /// The part that it ran on, unless it is refused.
    pub part: Option<Part>,
    pub totals: Result<Totals, Refusal>,
    /// The trace of it, for a picture.
    pub trace: Vec<u8>,
    /// The controllers that wait longer here than the sheets promise, controller 0's first.
    pub longer: [bool; 2],
}

impl Bench {
    /// What it is called: the file, and the place of the shelf if it is of one.
    pub fn name(&self) -> String {
        match self.spot {
            None => self.file.clone(),
            Some(spot) => format!("{}, {spot}", self.file),
        }
    }
}

/// What was found of a bundle.
#[derive(Clone, Debug, PartialEq, Eq)]
pub struct Examined {
    pub bundle: Bundle,
    pub asked: Asked,
    /// What the sheets order, also if boxes are empty; the refusal if one of them is no sheet.
    pub pair: Result<Pair, Refusal>,
    /// All orders of the start-up scripts, if they are there and can be tried.
    pub orders: Option<Orders>,
    /// The traces, and then the places of the shelf, script by script.
    pub bench: Vec<Bench>,
    /// The worst first.
    pub reasons: Vec<Reason>,
    pub allowed: Vec<Allowed>,
}

impl Examined {
    /// True if there is no reason against it.
    pub fn is_released(&self) -> bool {
        self.reasons.is_empty()
    }
}
