//! docs/SENTENCES.md names nothing that is not there. Each way in which it could is told in a sentence, seen here on a small repository.

use house::{sentence_faults, Tree, SENTENCES};

#[test]
fn every_name_is_there() {
    let found = sentence_faults(&Tree::of_this_repository());
    assert!(found.is_empty(), "\n\n{}\n", found.join("\n"));
}

const SPECS: &str = "crates/lamp/specs/Light.antt";
const SOURCE: &str = "crates/lamp/src/lib.rt";
const MARKS: &str = "crates/arbiter/specs/Marks.antt";
const TEST: &str = "rust/lamp/tests/light.rs";

/// A crate with a definition, a statement, a table and a call, the marked examples, a test, an edit and a program's output.
fn put_code(tree: &mut Tree) {
    tree.put(
        SPECS,
        "abbrev pub lit : Bool → Bool\nlit on = on\n\npub record Lamp : Type 0 where\n  pub on : Bool\n\n\
         abbrev pub AllLit : Type 0\nAllLit = (l : Lamp) → lit l.on ≡ true\n\n\
         unfoldable pub rows : List Row\nrows =\n    -- one lamp\n    (first is bright)\n    -- and another\n    ∷ (second is dark)\n    ∷ []\n",
    );
    tree.put(
        SOURCE,
        "pub struct Lamp {\n}\n\nconst MOST: u8 = 3;\n\npub fn is_lit(on: bool) -> bool\n    ensures { result ≡ lit on }\n{\n    on\n}\n\n\
         pub fn say() {\n}\n\nfn rest(on: bool) -> bool\n    ensures { result ≡ on }\n{\n    on\n}\n",
    );
    tree.put(
        MARKS,
        "unfoldable pub marked : List Row\nmarked =\n    -- M1 the first\n    (a is b)\n    ∷ (c is d)\n    -- M10 another\n    ∷ (e is f)\n    ∷ []\n",
    );
    tree.put(TEST, "#[test]\nfn it_is_lit() {\n}\n\nfn helper() {\n}\n");
    tree.put(
        "crates/lamp/must-fail/never_lit.edit",
        "file: src/lib.rt\nold: ensures { result ≡ lit on }\nnew: ensures { result ≡ off }\n",
    );
    tree.put("crates/show/stdout", "lit\n");
}

/// That and the page, of two sections.
fn small() -> Tree {
    let mut tree = Tree::default();
    put_code(&mut tree);
    tree.put(
        SENTENCES,
        "# Sentences\n\nA statement is named as `lamp/AllLit`, see `docs/SENTENCES.md`.\n\n\
         ## 01: Lamps\n\n| sentence | definition | carried by | shown by |\n|---|---|---|---|\n\
         | a lamp is lit | `lit` and `Lamp`, `lamp/specs/Light.antt`; `MOST`, `lamp/src/lib.rt` | `lamp/AllLit` | `M1.2`, `lamp/Light/rows: one`, `lamp/never_lit` |\n\
         | and left out | none: left out | none: left out | none: left out |\n\n\
         ## 02: #1\n\n| sentence | definition | carried by | shown by |\n|---|---|---|---|\n\
         | it tells | `is_lit`, `lamp/src/lib.rt` | `lamp::is_lit`; the words: nothing yet | `rust/lamp/tests/light.rs::it_is_lit`, `crates/show/stdout` |\n\n\
         ## Rows\n\n| section | rows | nothing yet |\n|---|---|---|\n| 01: Lamps | 2 | 0 |\n| 02: #1 | 1 | 1 |\n| all | 3 | 1 |\n",
    );
    tree
}

/// What is told where a text stands in another's place.
fn faults_after(path: &str, old: &str, new: &str) -> Vec<String> {
    sentence_faults(&small().replaced(path, old, new))
}

/// The one fault that is left, without where it is.
fn fault_after(path: &str, old: &str, new: &str) -> String {
    let found = faults_after(path, old, new);
    assert_eq!(found.len(), 1, "{found:#?}");
    let told = &found[0];
    told.strip_prefix("docs/SENTENCES.md, line 9: ").unwrap_or(told).to_string()
}

#[test]
fn a_repository_in_order() {
    assert_eq!(sentence_faults(&small()), Vec::<String>::new());
    let mut tree = small();
    tree.remove(SENTENCES);
    assert_eq!(sentence_faults(&tree), ["There is no docs/SENTENCES.md."]);
}

#[test]
fn a_definition_that_is_not_there() {
    let told = fault_after(SPECS, "abbrev pub lit :", "abbrev pub lights :");
    assert_eq!(told, "`lit` is not defined in crates/lamp/specs/Light.antt.");
    let told = fault_after(SPECS, "pub record Lamp :", "pub record Lamps :");
    assert_eq!(told, "`Lamp` is not defined in crates/lamp/specs/Light.antt.");
    let told = fault_after(SOURCE, "const MOST:", "const LEAST:");
    assert_eq!(told, "`MOST` is not defined in crates/lamp/src/lib.rt.");
    // The field of a record and the words of another file are no definitions.
    let told = fault_after(SENTENCES, "`lit` and", "`lit` and `on` and");
    assert_eq!(told, "`on` is not defined in crates/lamp/specs/Light.antt.");
    let told = fault_after(SENTENCES, "`lit` and", "`lit`, `lamp/specs/Dark.antt`; `lit` and");
    assert_eq!(told, "`lit` is not defined in crates/lamp/specs/Dark.antt.");
    let told = fault_after(SENTENCES, "`MOST`, `lamp/src/lib.rt`", "`MOST`");
    assert_eq!(told, "`MOST` is a definition without its file, or a file without a definition.");
}

#[test]
fn what_carries_nothing() {
    for name in
        ["lamp/Lit", "lamp/Lamp", "arbiter/AllLit", "lamp::say", "lamp::rest", "lamp/rows", "M1"]
    {
        let told =
            fault_after(SENTENCES, "| `lamp/AllLit` |", &format!("| `lamp/AllLit`, `{name}` |"));
        assert_eq!(
            told,
            format!("`{name}` is no statement of that crate, and no public call with a promise.")
        );
    }
}

#[test]
fn what_shows_nothing() {
    let names = [
        "M2",
        "M1.3",
        "M1.0",
        "M",
        "lamp/Light/row",
        "lamp/Light/rows: two lamps",
        "lamp/Dark/rows",
        "lamp/always_lit",
        "rust/lamp/tests/light.rs::helper",
        "rust/lamp/tests/dark.rs::it_is_lit",
        "crates/lamp/stdout",
        "docs/LAMPS.md",
        "lamp::is_lit",
    ];
    for name in names {
        let told = fault_after(SENTENCES, "`M1.2`", &format!("`M1.2`, `{name}`"));
        assert_eq!(
            told,
            format!("`{name}` is no example, test, statement, edit, stored output or page.")
        );
    }
    for name in [
        "M1",
        "M1.1",
        "M10",
        "M10.1",
        "lamp/Light/rows",
        "lamp/Light/rows: and another",
        "lamp/AllLit",
    ] {
        assert!(faults_after(SENTENCES, "`M1.2`", &format!("`{name}`")).is_empty(), "{name}");
    }
}

#[test]
fn cells_that_say_nothing() {
    for (old, title) in [
        ("| `lamp/AllLit` |", "carried by"),
        ("| `M1.2`, `lamp/Light/rows: one`, `lamp/never_lit` |", "shown by"),
    ] {
        let told = fault_after(SENTENCES, old, "| see there |");
        assert_eq!(told, format!("\"{title}\" names nothing, and says neither \"none: \" with a ground nor \"nothing yet\"."));
    }
    assert_eq!(
        fault_after(SENTENCES, "| a lamp is lit |", "|  |"),
        "the row does not tell its sentence."
    );
    let told = fault_after(SENTENCES, "| a lamp is lit |", "| `lit` says it |");
    assert_eq!(told, "a sentence is told in words, and this one names `lit`.");
    let told = fault_after(SENTENCES, "| `lamp/AllLit` |", "|");
    assert_eq!(told, "a row has four cells, and this one has 3.");
}

#[test]
fn lines_that_cannot_be_read() {
    let told = faults_after(SENTENCES, "| all | 3 | 1 |", "| all | 3 | 1");
    let expected = "docs/SENTENCES.md, line 24: a row begins with \"| \" and ends with \" |\".";
    assert_eq!(told[0], expected);
    let told = faults_after(SENTENCES, "see `docs/SENTENCES.md`", "see `docs/SENTENCES.md");
    assert_eq!(told[0], "docs/SENTENCES.md, line 3: a backquote has no partner.");
}

#[test]
fn names_outside_of_tables() {
    let told = fault_after(SENTENCES, "`lamp/AllLit`, see", "`lamp/NoneLit`, see");
    assert_eq!(
        told,
        "docs/SENTENCES.md names `lamp/NoneLit` outside of its tables, and there is no such thing."
    );
}

#[test]
fn rows_that_are_counted_wrong() {
    let told = fault_after(SENTENCES, "| 01: Lamps | 2 | 0 |", "| 01: Lamps | 3 | 0 |");
    assert_eq!(told, "docs/SENTENCES.md does not say under \"Rows\": | 01: Lamps | 2 | 0 |.");
    let told = fault_after(SENTENCES, "| all | 3 | 1 |\n", "");
    assert_eq!(told, "docs/SENTENCES.md does not say under \"Rows\": | all | 3 | 1 |.");
    let told = fault_after(SENTENCES, "| all | 3 | 1 |", "| 01: Bulbs | 1 | 0 |\n| all | 3 | 1 |");
    assert_eq!(told, "docs/SENTENCES.md counts the rows of \"01: Bulbs\", which has none.");
    // What is missing is counted too.
    assert_eq!(faults_after(SENTENCES, "; the words: nothing yet", "").len(), 2);
}
