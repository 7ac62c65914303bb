//! Contracts, edits and the page that is made of them agree. Each way in which they could not is told in a sentence, seen on a small repository:
//! of calls and the page here, of edits in `edits.rs`.

mod lamp;

use house::{faults, promises_page, Tree, LIST, TEMPLATE};
use lamp::{fault_after, only_fault, small, GATE, LIGHT, SAY, SOURCE, TRIED, UNIQUE};

#[test]
fn the_list_agrees_with_the_code() {
    let found = faults(&Tree::of_this_repository());
    assert!(found.is_empty(), "\n\n{}\n", found.join("\n"));
}

#[test]
fn a_repository_in_order() {
    assert_eq!(faults(&small()), Vec::<String>::new());
    let expected = "# Promises\n\n\
        | | device | what the edit makes of it | edit | refused at |\n|---|---|---|---|---|\n\
        | 1 | is one | wrong one | `lamp/one` | `glows` |\n\
        | 2 | is two | wrong two | `lamp/two` | `glows` |\n\
        | 3 | is three | wrong three | `lamp/three` | `glows` |\n\
        | 4 | is four | wrong four | `lamp/four` | `glows` |\n\
        | 5 | is five | wrong five | `lamp/five` | `glows` |\n\n\
        | crate | refused at: wrong rules and statements |\n|---|---|\n\
        | `lamp` | `Light.all_lit`: `lit_when_off` |\n\n\
        ### Lamps\n\n| call | promises | wrong answers refused |\n|---|---|---|\n\
        | `lamp::is_lit` | `lit`, `lamp/specs/Light.antt` | ★`never_lit`, `always_lit` |\n\
        | `lamp::glows` | `result ≡ now off.lit` | ★`five`, ★`four`, ★`never_lit`, ★`one`, ★`three`, ★`two` |\n\n\
        ## Exceptions\n\n| call | grounds | edits |\n|---|---|---|\n\
        | `show::main` | a program | none |\n| `show::words::say` | no result | none |\n";
    assert_eq!(promises_page(&small()), expected);
}

#[test]
fn no_list_or_one_that_is_not_made_of_what_stands_there() {
    let mut tree = small();
    tree.remove(LIST);
    assert_eq!(only_fault(&tree), "There is no docs/PROMISES.md.");
    let stale = "docs/PROMISES.md is not what contracts and edits give now. Make it anew: \
                 mkdir -p build && cargo run --release --offline --manifest-path rust/house/Cargo.toml --bin promises \
                 >build/PROMISES.md && mv build/PROMISES.md docs/PROMISES.md";
    assert_eq!(fault_after(LIST, "wrong three", "wrong"), stale);
    assert_eq!(fault_after(GATE, "# call: lamp::glows, ", "# call: "), stale);
    assert_eq!(fault_after("crates.txt", "# Lamps: one", "# Lights: one"), stale);
}

#[test]
fn a_list_that_is_too_long() {
    let words = promises_page(&small()).split_whitespace().count();
    for (more, is_told) in [(3999 - words, false), (4000 - words, true)] {
        let heading = format!("# Promises{}", " so".repeat(more));
        let mut tree = small().replaced(TEMPLATE, "# Promises", &heading);
        let page = promises_page(&tree);
        tree.put(LIST, &page);
        let told = "docs/PROMISES.md has 4000 words, and is to have fewer than 4000.";
        assert_eq!(faults(&tree), if is_told { vec![told] } else { vec![] });
    }
}

#[test]
fn a_template_without_a_place() {
    for place in ["{devices}", "{rules}", "{calls}"] {
        let told = fault_after(TEMPLATE, place, "");
        assert_eq!(told, format!("rust/house/src/promises/page.md has no line {place}."));
    }
    let mut tree = small();
    tree.remove(TEMPLATE);
    assert_eq!(faults(&tree)[0], "There is no rust/house/src/promises/page.md.");
}

#[test]
fn a_crate_that_is_not_listed() {
    let told = fault_after("crates.txt", "lamp:\n", "");
    assert_eq!(told, "crates.txt lacks `lamp`, which has public calls or edits.");
    let told = fault_after("crates.txt", "show: lamp\n", "");
    assert_eq!(told, "crates.txt lacks `show`, which has public calls or edits.");
    let mut tree = small();
    let text = "# wrong: nothing\nfile: specs/Far.antt\nold: a\nnew: b\n";
    tree.put("crates/far/tried/off.edit", text);
    tree.put("crates/far/specs/Far.antt", "a\n");
    assert_eq!(only_fault(&tree), "crates.txt lacks `far`, which has public calls or edits.");
}

#[test]
fn a_listed_call_that_is_not_public() {
    assert_eq!(
        fault_after(SAY, "pub fn say", "fn say"),
        "rust/house/src/promises/page.md lists `show::words::say`, and no crate has such a public call."
    );
}

#[test]
fn a_call_listed_twice() {
    let row = "| `show::main` | a program | {edits} |";
    let told = fault_after(TEMPLATE, row, &format!("{row}\n{row}"));
    assert_eq!(told, "`show::main` stands in rust/house/src/promises/page.md twice.");
    let told = fault_after(TRIED, "# call: lamp::is_lit", "# call: lamp::is_lit, lamp::is_lit");
    assert_eq!(told, format!("{TRIED}: it names the call `lamp::is_lit` twice."));
}

#[test]
fn a_public_call_with_a_requires() {
    let told = fault_after(
        SOURCE,
        "pub fn is_lit(on: bool) -> bool",
        "pub fn is_lit(on: bool) -> bool\n    requires { on }",
    );
    let expected = "`lamp::is_lit` of crates/lamp/src/lib.rt has a `requires`: a public call answers any input, or is listed as an exception \
                    with grounds.";
    assert_eq!(told, expected);
}

#[test]
fn a_public_call_with_no_promise() {
    let told = fault_after(SOURCE, "-> bool\n    ensures { result ≡ lit on }\n{", "-> bool {");
    assert_eq!(
        told,
        "`lamp::is_lit` of crates/lamp/src/lib.rt has no `ensures`, so it promises nothing, and it is no exception of \
         rust/house/src/promises/page.md."
    );
    let told = fault_after(TEMPLATE, "| `show::main` | a program | {edits} |\n", "");
    assert!(told.starts_with("`show::main` of crates/show/src/main.rt has no `ensures`"), "{told}");
    for head in ["pub fn rest(", "pub extern \"C\" fn rest("] {
        let found = faults(&small().replaced(SOURCE, "fn rest(", head));
        assert!(found[0].starts_with("`lamp::rest` of crates/lamp/src/lib.rt has a `requires`"));
        assert!(found[1].starts_with("`lamp::rest` of crates/lamp/src/lib.rt has no `ensures`"));
    }
}

#[test]
fn an_exception_without_grounds_or_with_a_promise() {
    let told = fault_after(TEMPLATE, "| a program |", "|  |");
    let expected = "The exception `show::main` has no grounds in rust/house/src/promises/page.md.";
    assert_eq!(told, expected);
    assert_eq!(fault_after(TEMPLATE, "| a program | {edits} |", "| {edits} |"), expected);
    let told = fault_after(TEMPLATE, "| a program | {edits} |", "| a program | none |");
    let expected =
        "The exception `show::main` has no cell {edits} in rust/house/src/promises/page.md.";
    assert_eq!(told, expected);
    let of_a_stream = "pub fn say() -> io::Result<()>\n    ensures { IfOk result lit }\n{";
    assert_eq!(faults(&small().replaced(SAY, "pub fn say() {", of_a_stream)), Vec::<String>::new());
    let told = fault_after(SAY, "pub fn say() {", "pub fn say()\n    ensures { ⊤ }\n{");
    let expected =
        "`show::words::say` has a promise in crates/show/src/words.rt, and rust/house/src/promises/page.md lists it as an exception.";
    assert_eq!(told, expected);
}

#[test]
fn a_definition_that_is_not_there_or_not_cited() {
    let told = fault_after(LIGHT, "pub lit :", "lit :");
    assert_eq!(told, "`lamp::is_lit` promises by `lit` of crates/lamp/specs/Light.antt, and it is not defined there.");
    let told = fault_after(SOURCE, "specs.Light.{lit, off}", "specs.Dark.{lit, off}");
    assert_eq!(told, "`lamp::is_lit` promises by `lit` of crates/lamp/specs/Dark.antt, and it is not defined there.");
    let told = fault_after(SOURCE, "result ≡ lit on", "result ≡ on");
    assert!(
        told.starts_with("docs/PROMISES.md is not what contracts and edits give now."),
        "{told}"
    );
}

/// Names that are set around what they are given, and those of a file that is used whole.
#[test]
fn definitions_cited_in_other_ways() {
    let cited = |imports: &str, promise: &str| {
        let tree = small()
            .replaced(SOURCE, "ghost use Rattle.lamp.specs.Light.{lit, off};", imports)
            .replaced(SOURCE, "result ≡ lit on", promise);
        let page = promises_page(&tree);
        let row = page.lines().find(|line| line.starts_with("| `lamp::is_lit` |"));
        row.expect("a row").split(" | ").nth(1).expect("a cell").to_string()
    };
    let words = "ghost use Rattle.lamp.specs.Words.{if◌then◌else◌, lit};";
    assert_eq!(
        cited(words, "result ≡ (if on then x else y)"),
        "`if◌then◌else◌`, `lamp/specs/Words.antt`"
    );
    assert_eq!(cited(words, "result ≡ (if on then x)"), "`result ≡ (if on then x)`");
    let calls = "ghost use Rattle.lamp.specs.Light.{lit};\nghost use Rattle.ear.specs.Calls.{loud};\nghost use Rattle.eye.specs.Calls;";
    assert_eq!(cited(calls, "result ≡ Calls.lit on"), "`lit`, `eye/specs/Calls.antt`");
    assert_eq!(
        cited(calls, "(result ≡ lit on) × (s ≡ Calls.lit on)"),
        "`lit`, `lamp/specs/Light.antt`; `lit`, `eye/specs/Calls.antt`"
    );
}

/// A promise in several clauses, each with a name, which cites nothing; and the fields of what is cited.
#[test]
fn a_promise_in_several_clauses() {
    let cited = |promise: &str| {
        let tree = small().replaced(SOURCE, "    ensures { result ≡ lit on }\n", promise);
        let page = promises_page(&tree);
        let row = page.lines().find(|line| line.starts_with("| `lamp::is_lit` |"));
        row.expect("a row").split(" | ").nth(1).expect("a cell").to_string()
    };
    let two = "    ensures off { result ≡ on }\n    ensures lit { on ≡ result }\n";
    assert_eq!(cited(two), "`result ≡ on`");
    let two = "    ensures value { record { a = result } ≡ x }\n    ensures again {\n        result ≡ lit.level\n    }\n";
    assert_eq!(cited(two), "`lit`, `lamp/specs/Light.antt`");
    assert_eq!(cited("    ensures { result ≡ on.lit }\n"), "`result ≡ on.lit`");
    assert_eq!(cited("    ensures { result ≡ (off on).lit }\n"), "`off`, `lamp/specs/Light.antt`");
}

#[test]
fn a_call_with_no_law_of_uniqueness() {
    let fault = fault_after(UNIQUE, "pub glows_once", "pub grows_once");
    assert_eq!(
        fault,
        "No `glows_once` in crates/lamp/proofs/Unique.antt says that the promise of `lamp::glows` leaves room for one result."
    );
}
