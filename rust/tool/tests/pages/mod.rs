//! Bundles of every kind, as they are judged, and their pages. Each test of the page uses some of this.
#![allow(dead_code)]

use std::fs;

use gunwaleish_tool::release::judge::examine;
use gunwaleish_tool::release::page::page;
use gunwaleish_tool::release::{Asked, Bundle, Examined, Read, ShelfRead};
use gunwaleish_tool::sha256;

use super::common::root;
use super::strict::{parse, Element};

/// 2026-11-16 08:49:32 UTC.
pub const AT: u64 = 1_794_818_972;
/// 2023-11-14 22:13:20 UTC.
pub const CHANGED: u64 = 1_700_000_000;

pub fn named(name: &str, bytes: &[u8]) -> Read {
    Read {
        path: name.into(),
        name: name.to_string(),
        bytes: bytes.to_vec(),
        size: bytes.len() as u64,
        changed: Some(CHANGED),
        sha256: sha256::of(bytes),
    }
}

/// A sample of the repository.
pub fn sample(name: &str) -> Read {
    named(name, &fs::read(root().join(name)).unwrap())
}

pub fn bundle(board: &str, house: &str) -> Bundle {
    Bundle {
        folder: Some("releases/sample".to_string()),
        board: sample(board),
        house: sample(house),
        texts: [None, None],
        scripts: None,
        shelf: None,
        traces: vec![],
        others: vec![],
    }
}

pub fn safe() -> Bundle {
    bundle("sheets/board.sheet", "sheets/house.sheet")
}

pub fn incident() -> Bundle {
    bundle("sheets/board-box14.sheet", "sheets/house.sheet")
}

pub fn without_limit() -> Bundle {
    bundle("sheets/board-without-limit.sheet", "sheets/house.sheet")
}

/// Everything that a bundle may have, and much that is wrong.
pub fn full() -> Bundle {
    Bundle {
        texts: ["sheets/board.txt", "sheets/house.txt"].map(sample).map(Some),
        scripts: Some(
            ["traces/orders/start0.script", "traces/orders/start1-no-last-stop.script"].map(sample),
        ),
        shelf: Some(ShelfRead {
            shelf: sample("traces/shelf/chassis.shelf"),
            scripts: vec![sample("traces/shelf/hang.script")],
        }),
        traces: ["traces/box14-rt00.trace", "traces/refused-cut.trace", "traces/takeover.trace"]
            .map(sample)
            .to_vec(),
        others: vec!["notes.txt".to_string()],
        ..safe()
    }
}

pub fn both_without_limit() -> Asked {
    Asked { without_limit: [true; 2], ..Asked::default() }
}

/// A bundle of each kind, as it is judged.
pub fn kinds() -> Vec<(&'static str, Examined)> {
    let named_one_by_one = Bundle { folder: None, ..safe() };
    vec![
        ("safe", examine(safe(), Asked::default())),
        ("incident", examine(incident(), Asked::default())),
        ("ticked 0", examine(without_limit(), Asked::default())),
        ("allowed", examine(without_limit(), both_without_limit())),
        ("no sheet", examine(bundle("traces/m1.trace", "sheets/house.sheet"), Asked::default())),
        ("full", examine(full(), Asked { most: Some(30), ..Asked::default() })),
        ("one by one", examine(named_one_by_one, Asked::default())),
    ]
}

pub fn root_of(examined: &Examined) -> Element {
    parse(&page(examined, AT)).unwrap_or_else(|why| panic!("not well-formed: {why}"))
}

pub fn words(element: &Element) -> String {
    element.text().split_whitespace().collect::<Vec<_>>().join(" ")
}

/// One of them.
pub fn of_kind(name: &str) -> Examined {
    kinds().into_iter().find(|kind| kind.0 == name).unwrap().1
}
