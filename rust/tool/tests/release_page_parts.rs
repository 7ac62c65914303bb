//! The parts of the page to file with a release: the form, the waits with what proves them, the pictures, the bench, and what made it.

mod common;
mod pages;
mod strict;

use common::text;
use gunwaleish::library_identity;
use gunwaleish_tool::release::judge::examine;
use gunwaleish_tool::release::page::statements::ALL;
use gunwaleish_tool::release::page::time::utc;
use gunwaleish_tool::release::{Asked, Examined};
use pages::{bundle, incident, of_kind, root_of, safe, without_limit, words, AT};
use strict::Element;

/// The row of a box: on the board sheet, on the house sheet, and what is ordered.
fn form(examined: &Examined) -> Vec<Vec<String>> {
    let root = root_of(examined);
    let rows = root.named("tbody")[0].named("tr");
    let cells =
        |row: &&Element| row.named("th").into_iter().chain(row.named("td")).map(words).collect();
    rows.iter().map(cells).collect()
}

#[test]
fn the_sheets_stand_as_a_form_with_both_columns() {
    let over = examine(
        bundle("sheets/board-over-house.sheet", "sheets/house-full.sheet"),
        Asked::default(),
    );
    let rows = form(&over);
    let row = |place: usize| rows[place].join(" | ");
    assert_eq!(
        row(0),
        "Downstream reserve, ms, controller 0 | 30 ms counts | 50 ms | 30 ms; from the board sheet, bytes 1 and 2"
    );
    assert_eq!(row(1), "Downstream reserve, ms, controller 1 | empty | 20 ms counts | 20 ms; from the house sheet, bytes 3 and 4");
    assert_eq!(
        row(2),
        "Priority, controller 0 | 0, no priority counts | 1, priority | 0, no priority; from the board sheet, bytes 6 and 7"
    );
    assert_eq!(row(4), "Idle timer, controller 0 | 1, on counts | 0, off | 1, on; from the board sheet, bytes 11 and 12");
    assert_eq!(rows.len(), 6);

    let empty = form(&examine(incident(), Asked::default()));
    assert_eq!(empty[0][1..], ["empty", "empty", "nothing: empty on both sheets"]);
    let zero = form(&examine(without_limit(), Asked::default()));
    assert_eq!(zero[0][1..3], ["0, without limit counts", "empty"]);
    let none = form(&examine(bundle("traces/m1.trace", "sheets/house.sheet"), Asked::default()));
    assert_eq!(none[2][1..3], ["no order sheet", "0, no priority"]);
}

/// Every statement is one of `docs/STATEMENTS.md`, in the file that it says, and the page names those of its waits.
#[test]
fn the_waits_are_told_with_what_proves_them() {
    let statements = text("docs/STATEMENTS.md");
    for statement in ALL {
        let is_it = |line: &&str| line.contains(&format!("`{}`", statement.name));
        let line = statements.lines().find(is_it).unwrap_or_else(|| panic!("{}", statement.name));
        assert!(line.contains(&format!("`{}`", statement.file)), "{}", statement.name);
    }
    let waits = |kind: &str| {
        let root = root_of(&of_kind(kind));
        let is_waits = |section: &&&Element| section.attribute("aria-labelledby") == Some("waits");
        let sections = root.named("section");
        words(sections.iter().find(is_waits).unwrap())
    };
    let safe = waits("safe");
    for part in [
        "waits at most 21 ms",
        "waits at most 51 ms",
        "SheetsGuarantee",
        "WaitTells",
        "else once they are",
    ] {
        assert!(safe.contains(part), "{part}: {safe}");
    }
    assert!(!safe.contains("ReserveNecessary"));
    let zero = waits("ticked 0");
    for part in [
        "without limit",
        "101 ms, behind a silent holder alone",
        "151 ms",
        "ReserveNecessary",
        "IdleBoxKept",
    ] {
        assert!(zero.contains(part), "{part}: {zero}");
    }
    assert!(!zero.contains("SheetsGuarantee"));
    assert!(waits("incident").contains("EmptyNoEvents"));
}

/// The pictures by their captions. Each fits its page, and is told to those who do not see it.
#[test]
fn the_pictures_are_drawn_into_the_page() {
    let captions = |kind: &str| -> Vec<String> {
        let root = root_of(&of_kind(kind));
        for svg in root.named("svg") {
            assert!(svg.attribute("viewBox").is_some_and(|whole| whole.starts_with("0 0 ")));
            assert_eq!((svg.attribute("width"), svg.attribute("role")), (None, Some("img")));
            assert!(svg.attribute("aria-label").is_some_and(|label| label.len() > 40));
        }
        assert_eq!(root.named("svg").len(), root.named("figure").len());
        root.named("figcaption").into_iter().map(words).collect()
    };
    let safe = captions("safe");
    assert_eq!(safe.len(), 1);
    assert!(
        safe[0].ends_with("Controller 1, which waits, has its turn at tick 50."),
        "{}",
        safe[0]
    );
    assert!(captions("ticked 0")[0].contains("has no turn in 300 ticks"));
    assert!(captions("incident").is_empty());
    // Then the worst order, and where each controller waits longest: in the traces, and on the shelf.
    let full = captions("full");
    assert!(full[1].starts_with("The worst order: "), "{}", full[1]);
    let longest = [
        "traces/box14-rt00.trace, a PCA9641: here controller 1",
        "traces/shelf/hang.script, place 1, address 71h",
    ];
    assert_eq!(full.len(), 2 + longest.len(), "{full:?}");
    for (caption, start) in full[2..].iter().zip(longest) {
        assert!(
            caption.starts_with(start) && caption.contains("controller 1 waits longest"),
            "{caption}"
        );
    }
}

/// The longest waits beside what is promised, and the share of the bus over all traces.
#[test]
fn the_bench_is_told_by_its_totals() {
    let root = root_of(&of_kind("full"));
    let rows = |class: &str| -> Vec<String> {
        let table = root.of_class(class)[0];
        table
            .named("tr")
            .into_iter()
            .map(|row| {
                row.all()[1..].iter().map(|cell| words(cell)).collect::<Vec<_>>().join(" | ")
            })
            .collect()
    };
    let bench = rows("bench");
    assert!(
        bench[0].contains("promised: at most 21") && bench[0].contains("promised: at most 51"),
        "{}",
        bench[0]
    );
    let row = |start: &str| {
        bench.iter().find(|row| row.starts_with(start)).unwrap_or_else(|| panic!("{start}")).clone()
    };
    assert!(
        row("traces/box14-rt00.trace").ends_with("PCA9641 | 300 | 0 | 300, longer than promised")
    );
    assert!(row("traces/refused-cut.trace")
        .ends_with("refusal 5: cut: bytes are missing at the end | refused"));
    assert!(row("traces/takeover.trace").ends_with(" | 0 | 0 | 0"));
    let shares = rows("shares");
    assert_eq!(shares[1], "Controller 0 | 300, 100.0 % | 300, 100.0 % | 0, 0.0 %");
    assert_eq!(shares[2], "Controller 1 | 0, 0.0 % | 0, 0.0 % | 300, 100.0 %");
}

#[test]
fn the_page_says_what_made_it() {
    let said = words(&root_of(&examine(safe(), Asked::default())));
    let library = library_identity();
    let version = concat!("gunwaleish ", env!("CARGO_PKG_VERSION"));
    for part in [version, library.commit, library.kit, library.machine, "2026-11-16 08:49:32 UTC"] {
        assert!(said.contains(part), "{part}");
    }
}

/// As `date -u` has them: leap days, turns of years, and years that are none by the hundred.
#[test]
fn moments_in_utc() {
    let moments = [
        (0, "1970-01-01 00:00:00"),
        (68_169_599, "1972-02-28 23:59:59"),
        (68_169_600, "1972-02-29 00:00:00"),
        (951_782_400, "2000-02-29 00:00:00"),
        (951_868_800, "2000-03-01 00:00:00"),
        (1_735_689_599, "2024-12-31 23:59:59"),
        (1_735_689_600, "2025-01-01 00:00:00"),
        (4_107_542_399, "2100-02-28 23:59:59"),
        (4_107_542_400, "2100-03-01 00:00:00"),
        (AT, "2026-11-16 08:49:32"),
    ];
    for (seconds, moment) in moments {
        assert_eq!(utc(seconds), format!("{moment} UTC"));
    }
}
