//! The page to file with a release: well-formed, whole by itself, with every file on it, and with the verdict in words.

mod common;
mod pages;
mod strict;

use std::fs;

use common::root;
use gunwaleish_tool::release::judge::examine;
use gunwaleish_tool::release::page::page;
use gunwaleish_tool::release::{Asked, Examined, Read};
use pages::{kinds, named, of_kind, root_of, safe, words, AT};
use strict::Element;

#[test]
fn the_reader_is_strict() {
    strict::refuses_what_is_not_well_formed();
}

#[test]
fn every_page_is_well_formed_and_has_its_parts_in_order() {
    for (kind, examined) in kinds() {
        let root = root_of(&examined);
        let ids: Vec<&str> = root.all().into_iter().filter_map(|e| e.attribute("id")).collect();
        let parts = ["reasons", "sheets", "waits", "start", "orders", "bench", "read", "identity"];
        assert_eq!(ids, parts, "{kind}");
        for section in root.named("section") {
            let id = section.attribute("aria-labelledby").unwrap();
            assert_eq!(root.of_id(id).unwrap().name, "h2", "{kind}");
        }
        let first = root.named("main")[0].all()[1];
        assert_eq!((first.name.as_str(), first.named("h1").len()), ("header", 1), "{kind}");
        assert_eq!(root.named("h1").len(), 1, "{kind}");
    }
}

/// No element that fetches or runs, no attribute that names another file, and in the style nothing that does.
#[test]
fn nothing_outside_is_referred_to() {
    let fetching = [
        "script", "link", "img", "iframe", "object", "embed", "image", "use", "a", "base", "form",
        "input",
    ];
    for (kind, examined) in kinds() {
        let page = page(&examined, AT);
        for word in ["http", "url(", "@import", "src=", "href=", "javascript", "xmlns"] {
            assert!(!page.contains(word), "{kind}: {word}");
        }
        let root = root_of(&examined);
        for element in root.all() {
            assert!(!fetching.contains(&element.name.as_str()), "{kind}: {}", element.name);
            let on = element
                .attributes
                .iter()
                .find(|(name, _)| name.starts_with("on") || name == "style");
            assert_eq!(on, None, "{kind}");
        }
        assert_eq!(root.named("style").len(), 1, "{kind}");
    }
}

/// The heading, how many reasons there are, and what was let pass.
#[test]
fn the_verdict_stands_first_and_in_words() {
    let verdict = |examined: &Examined| {
        let root = root_of(examined);
        let boxes = root.of_class("verdict");
        let looks =
            boxes.iter().map(|one| one.attribute("class").unwrap().to_string()).collect::<Vec<_>>();
        (words(root.named("h1")[0]), looks, words(root.named("title")[0]))
    };
    let of = |name: &str| verdict(&of_kind(name));
    let (good, bad) = ("verdict good".to_string(), "verdict bad".to_string());

    let (heading, looks, title) = of("safe");
    assert_eq!((heading.as_str(), looks), ("Released", vec![good.clone()]));
    assert_eq!(title, "Released: releases/sample");

    let (heading, looks, title) = of("incident");
    assert_eq!((heading.as_str(), looks), ("Not released", vec![bad.clone()]));
    assert_eq!(title, "Not released: releases/sample");

    // A ticked 0 is passed on purpose alone, and then in red beside the verdict, for each controller.
    let (heading, looks, _) = of("ticked 0");
    assert_eq!((heading.as_str(), looks), ("Not released", vec![bad.clone()]));
    let (heading, looks, title) = of("allowed");
    assert_eq!((heading.as_str(), looks), ("Released", vec![good, bad]));
    assert_eq!(
        title,
        "Released, with both controllers' reserves without limit on purpose: releases/sample"
    );

    assert_eq!(of("one by one").2, "Released: sheets/board.sheet and sheets/house.sheet");
}

#[test]
fn every_reason_is_told_with_file_and_place_and_what_mends_it() {
    for (kind, examined) in kinds() {
        let root = root_of(&examined);
        let told = root.of_class("reasons");
        if examined.reasons.is_empty() {
            assert!(told.is_empty(), "{kind}");
            continue;
        }
        let items = told[0].named("li");
        assert_eq!(items.len(), examined.reasons.len(), "{kind}");
        for (item, reason) in items.iter().zip(&examined.reasons) {
            let said = words(item);
            let parts =
                [Some(&reason.file), reason.place.as_ref(), Some(&reason.what), Some(&reason.mend)];
            for part in parts.into_iter().flatten() {
                let part = part.split_whitespace().collect::<Vec<_>>().join(" ");
                assert!(said.contains(&part), "{kind}: '{part}' is not in '{said}'");
            }
        }
    }
}

/// Each with its size, the time of its last change and its SHA-256.
#[test]
fn every_file_that_was_read_is_named() {
    for (kind, examined) in kinds() {
        let root = root_of(&examined);
        let tables: Vec<&Element> =
            root.named("table").into_iter().filter(|t| words(t).contains("SHA-256")).collect();
        let rows = tables[0].named("tbody")[0].named("tr");
        let files: Vec<&Read> = examined.bundle.files().collect();
        assert_eq!(rows.len(), files.len(), "{kind}");
        for file in files {
            let row =
                rows.iter().map(|row| words(row)).find(|row| row.contains(&file.name)).unwrap();
            let size = format!("{} bytes", file.size);
            for part in [size.as_str(), "2023-11-14 22:13:20 UTC", &file.sha256] {
                assert!(row.contains(part), "{kind}: {part} is not in {row}");
            }
        }
        for other in &examined.bundle.others {
            assert!(words(&root).contains(other), "{kind}");
        }
    }
}

/// Names and words of files are text, whatever is in them.
#[test]
fn names_are_text() {
    let odd = "<b>&\"x\u{7}.trace";
    let mut bundle = safe();
    bundle.traces = vec![
        named(odd, &fs::read(root().join("traces/box14-rt00.trace")).unwrap()),
        named("'</style>", b"no trace"),
    ];
    bundle.others = vec!["<script>alert(1)</script>".to_string()];
    bundle.folder = Some("<!-- a & b -->".to_string());
    let examined = examine(bundle, Asked::default());
    let root = root_of(&examined);
    assert!(root.named("b").is_empty() && root.named("script").is_empty());
    let said = words(&root);
    // A control character, which no page may have, is a question mark.
    for name in ["<b>&\"x?.trace", "'</style>", "<script>alert(1)</script>", "<!-- a & b -->"] {
        assert!(said.contains(name), "{name}");
    }
    assert_eq!(words(root.named("title")[0]), "Not released: <!-- a & b -->");
}
