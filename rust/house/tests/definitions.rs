//! docs/DEFINITIONS.md has every file of definitions once, in reading order, with its count of lines. Each way in which it could not be so is told
//! in a sentence, seen here on a small repository.

use house::{counted, definition_faults, Tree, DEFINITIONS};

#[test]
fn every_file_is_listed_in_reading_order() {
    let found = definition_faults(&Tree::of_this_repository());
    assert!(found.is_empty(), "\n\n{}\n", found.join("\n"));
}

const LAMP: &str = "crates/lamp/specs/Lamp.antt";
const LAMP_ROW: &str = "| `lamp/specs/Lamp.antt` | 01, Straps | a lamp | 2 |\n";
const LAWS_ROW: &str = "| `lamp/specs/Laws.antt` | #104 | what holds of lamps | 3 |\n";
const EYE_ROW: &str = "| `eye/specs/Eye.antt` | the code | an eye | 2 |\n";

/// Two crates with three files of definitions, each of which uses the one before, a list and a proof, and the page.
fn small() -> Tree {
    let mut tree = Tree::default();
    tree.put(LAMP, "-- Document 01, \"Straps\": a lamp.\npub lamp : Lamp\n");
    tree.put(
        "crates/lamp/specs/Laws.antt",
        "-- Request 104, what holds of lamps.\nuse Rattle.lamp.specs.Lamp.{lamp}\npub Lit : Type 0\n",
    );
    tree.put("crates/lamp/specs/Lib.antt", "-- The files.\n");
    tree.put("crates/lamp/proofs/Laws.antt", "pub lit : Lit\n");
    tree.put("crates/eye/specs/Eye.antt", "-- An eye.\nuse Rattle.lamp.specs.Laws.{Lit}\n");
    let head = "# Definitions\n\n| file | of | what it has | lines |\n|---|---|---|---|\n";
    tree.put(DEFINITIONS, &format!("{head}{LAMP_ROW}{LAWS_ROW}{EYE_ROW}"));
    tree
}

/// The one fault that is told where a text of the page stands in another's place.
fn fault_after(old: &str, new: &str) -> String {
    let found = definition_faults(&small().replaced(DEFINITIONS, old, new));
    assert_eq!(found.len(), 1, "{found:#?}");
    found[0].clone()
}

#[test]
fn a_repository_in_order() {
    assert_eq!(definition_faults(&small()), Vec::<String>::new());
    let mut tree = small();
    tree.remove(DEFINITIONS);
    assert_eq!(definition_faults(&tree), ["There is no docs/DEFINITIONS.md."]);
}

#[test]
fn a_file_without_a_row_or_with_two() {
    let told = fault_after(EYE_ROW, "");
    assert_eq!(told, "crates/eye/specs/Eye.antt has no row in docs/DEFINITIONS.md.");
    let told = fault_after(EYE_ROW, &EYE_ROW.repeat(2));
    assert_eq!(told, "crates/eye/specs/Eye.antt has 2 rows in docs/DEFINITIONS.md.");
}

#[test]
fn a_row_of_no_file() {
    for file in ["eye/specs/Far.antt", "lamp/proofs/Laws.antt"] {
        let row = format!("{EYE_ROW}| `{file}` | the code | more | 1 |\n");
        let told = fault_after(EYE_ROW, &row);
        assert_eq!(told, format!("docs/DEFINITIONS.md lists `{file}`, which no crate defines."));
    }
}

#[test]
fn another_count() {
    let told = fault_after("a lamp | 2 |", "a lamp | 3 |");
    let said = "crates/lamp/specs/Lamp.antt has 2 lines, and docs/DEFINITIONS.md says 3;";
    assert!(told.starts_with(said), "{told}");
}

#[test]
fn the_counts_are_made() {
    let page = small().text(DEFINITIONS).map(str::to_string);
    assert_eq!(counted(&small()), page);
    let wrong = small().replaced(DEFINITIONS, "a lamp | 2 |", "a lamp | 30 |");
    assert_eq!(counted(&wrong), page);
    let mut longer = small();
    longer.put(LAMP, "-- Document 01, \"Straps\": a lamp.\n\npub lamp : Lamp\n");
    let mended = counted(&longer).expect("there is a page");
    assert!(mended.contains("| a lamp | 3 |"), "{mended}");
    assert!(definition_faults(&longer.replaced(DEFINITIONS, "a lamp | 2", "a lamp | 3")).is_empty());
}

#[test]
fn a_file_before_one_that_it_uses() {
    let told = fault_after(&format!("{LAMP_ROW}{LAWS_ROW}"), &format!("{LAWS_ROW}{LAMP_ROW}"));
    assert_eq!(told, "`lamp/specs/Laws.antt` stands before `lamp/specs/Lamp.antt` in docs/DEFINITIONS.md, and uses it: the page goes in reading order.");
    let told = fault_after(&format!("{LAWS_ROW}{EYE_ROW}"), &format!("{EYE_ROW}{LAWS_ROW}"));
    assert!(told.starts_with("`eye/specs/Eye.antt` stands before `lamp/specs/Laws.antt`"));
}

#[test]
fn a_row_that_says_nothing() {
    let told = fault_after("| an eye |", "|  |");
    assert_eq!(
        told,
        "The row of `eye/specs/Eye.antt` in docs/DEFINITIONS.md does not say what it has."
    );
    for of in ["", "02", "#99", "01, Lamps", "somebody"] {
        let told = fault_after("| the code |", &format!("| {of} |"));
        assert_eq!(told, format!("The row of `eye/specs/Eye.antt` in docs/DEFINITIONS.md says that it is of '{of}', which is no section, request or demand."));
    }
}

#[test]
fn a_row_that_says_what_its_file_does_not() {
    let told = fault_after("| #104 |", "| #105 |");
    assert_eq!(
        told,
        "crates/lamp/specs/Laws.antt says that it is of #104, and docs/DEFINITIONS.md says '#105'."
    );
    let told = fault_after("| 01, Straps |", "| 01, Events |");
    assert_eq!(told, "crates/lamp/specs/Lamp.antt says that it is of 01, Straps, and docs/DEFINITIONS.md says '01, Events'.");
}
