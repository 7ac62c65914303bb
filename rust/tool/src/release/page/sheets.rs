//! Both order sheets as the form has them: a row for each box, a column for each sheet, and where what is
//! ordered comes from.

use gunwaleish::{sheet_box, Found, Refusal, Section, Sheet};

use super::html::{paragraph, section, Cell, Table};
use super::statements::{self, Statement};
use crate::release::Examined;
use crate::sheet::{lasting, BoxName, OPEN};
use crate::svg::escaped;

pub fn written(examined: &Examined) -> String {
    let bundle = &examined.bundle;
    let mut table = Table::new("boxes", &["Box", "Board sheet", "House sheet", "What is ordered"]);
    for name in BoxName::all() {
        let row = Row::read(name, &bundle.board.bytes, &bundle.house.bytes);
        table.row(Cell::words(&name.to_string()), &row.cells());
    }
    let body = table.finish("The six boxes of both sheets. The box that counts is marked.")
        + &lasting(examined)
        + &statements::listed(&PROOFS);
    section("sheets", "The two order sheets", &body)
}

const PROOFS: [&Statement; 3] =
    [&statements::BOARD_FIRST, &statements::HOUSE_ELSE, &statements::ALWAYS_TICKED];

/// A box: on each sheet by itself, and what the pair orders.
struct Row {
    name: BoxName,
    board: Result<Found, Refusal>,
    house: Result<Found, Refusal>,
    pair: Result<Found, Refusal>,
}

impl Row {
    /// Beside a sheet that ticks nothing, a sheet shows its own box.
    fn read(name: BoxName, board: &[u8], house: &[u8]) -> Row {
        let found = |board, house| sheet_box(board, house, name.section, name.controller);
        Row {
            name,
            board: found(board, &OPEN),
            house: found(&OPEN, house),
            pair: found(board, house),
        }
    }

    fn cells(&self) -> [Cell; 3] {
        let chosen = self.pair.ok().map(|found| found.sheet);
        [
            self.on_sheet(self.board, chosen == Some(Sheet::Board)),
            self.on_sheet(self.house, chosen == Some(Sheet::House)),
            self.ordered(),
        ]
    }

    fn on_sheet(&self, found: Result<Found, Refusal>, counts: bool) -> Cell {
        match found {
            Err(Refusal::EmptyBox) => Cell::words("empty").look("empty"),
            Err(_) => Cell::words("no order sheet").look("wrong"),
            Ok(found) if counts => {
                let value = escaped(&self.value(found.value));
                Cell::html(format!("{value} <span class=\"mark\">counts</span>")).look("counts")
            }
            Ok(found) => Cell::words(&self.value(found.value)),
        }
    }

    fn ordered(&self) -> Cell {
        match self.pair {
            Err(Refusal::EmptyBox) => Cell::words("nothing: empty on both sheets").look("wrong"),
            Err(_) => Cell::words("nothing: one of the two is no order sheet").look("wrong"),
            Ok(found) => {
                let value = self.value(found.value);
                let (tick, byte) = (found.offset, found.offset + 1);
                let cell = Cell::words(&format!(
                    "{value}; from the {}, bytes {tick} and {byte}",
                    found.sheet
                ));
                match self.is_without_limit(found.value) {
                    true => cell.look("wrong"),
                    false => cell,
                }
            }
        }
    }

    fn is_without_limit(&self, value: u8) -> bool {
        self.name.section == Section::Reserve && value == 0
    }

    /// What a ticked box says.
    fn value(&self, value: u8) -> String {
        match (self.name.section, value) {
            (Section::Reserve, 0) => "0, without limit".to_string(),
            (Section::Reserve, _) => format!("{value} ms"),
            (Section::Priority, 0) => "0, no priority".to_string(),
            (Section::Priority, _) => format!("{value}, priority"),
            (Section::Idle, 0) => "0, off".to_string(),
            (Section::Idle, _) => format!("{value}, on"),
        }
    }
}

/// The boxes that do not last, and the bytes that keep them.
fn lasting(examined: &Examined) -> String {
    let Ok(pair) = &examined.pair else {
        return String::new();
    };
    let told = lasting::told(pair);
    let mut lines = told.lines();
    let first = lines.next().map_or(String::new(), paragraph);
    first + &super::html::list(&lines.map(str::to_string).collect::<Vec<_>>())
}
