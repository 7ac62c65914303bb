//! Every statement is a field of a record, one term fills each record, and docs/STATEMENTS.md has a line for each. Each way in which it could
//! not be so is told in a sentence, seen here on a small repository.

use house::{statement_faults, Tree, STATEMENTS};

#[test]
fn every_statement_is_held_and_listed() {
    let found = statement_faults(&Tree::of_this_repository());
    assert!(found.is_empty(), "\n\n{}\n", found.join("\n"));
}

const LAWS: &str = "crates/lamp/specs/Laws.antt";
const RECORD: &str = "crates/lamp/specs/Answers.antt";
const PROOFS: &str = "crates/lamp/proofs/Laws.antt";
const TERM: &str = "crates/lamp/proofs/Answers.antt";

/// A crate with four statements, one of them a record, beside a word with a parameter, a type of values and a lemma.
fn put_lamp(tree: &mut Tree) {
    tree.put(
        LAWS,
        "abbrev pub Lit : Lamp → Type 0\nLit l = l.on ≡ true\n\n\
         abbrev pub AllLit : Type 0\nAllLit = (l : Lamp) → Lit l\n\n\
         abbrev pub NoneDark : Type 0\nNoneDark = Lit lamp\n\n\
         pub record OneBright : Type 0 where\n  pub lamp : Lamp\n  pub bright : Lit lamp\n\n\
         pub record Row : Type 0 where\n  pub found : ℕ\n  pub paper : ℕ\n",
    );
    tree.put(
        "crates/lamp/specs/Far.antt",
        "abbrev pub Seen : Type 1\nSeen = (A : Type 0) → A → A\n",
    );
    tree.put(
        RECORD,
        "use Rattle.lamp.specs.Laws.{AllLit, NoneDark, OneBright}\n\n\
         pub record Answers : Type 0 where\n  -- Is it lit?\n  pub all_lit : AllLit\n  pub none_dark : NoneDark\n  pub one_bright : OneBright\n",
    );
    tree.put(
        PROOFS,
        "use Rattle.lamp.specs.Laws.{Lit, AllLit, NoneDark, OneBright}\n\n\
         pub lemma : (l : Lamp) → Lit l\nlemma l = refl\n\n\
         pub all_lit : AllLit\nall_lit = lemma\n\npub none_dark : NoneDark\nnone_dark = refl\n\n\
         pub one_bright : OneBright\none_bright = record { lamp = it; bright = refl }\n",
    );
    tree.put(
        TERM,
        "use Rattle.lamp.specs.Answers.{Answers}\n\n\
         pub answers : Answers\nanswers =\n    record {\n      all_lit = all_lit;\n      none_dark = none_dark;\n      one_bright = one_bright;\n    }\n",
    );
}

/// A crate that proves what the other states, in a record of its own.
fn put_eye(tree: &mut Tree) {
    tree.put(
        "crates/eye/specs/Answers.antt",
        "use Rattle.lamp.specs.Far.{Seen}\n\npub record Sight : Type 1 where\n  pub seen : Seen\n",
    );
    tree.put(
        "crates/eye/proofs/Sight.antt",
        "use Rattle.eye.specs.Answers.{Sight}\nuse Rattle.lamp.specs.Far.{Seen}\n\n\
         pub seen : Seen\nseen A x = x\n\npub sight : Sight\nsight = record { seen = seen }\n",
    );
}

/// Both, and the page.
fn small() -> Tree {
    let mut tree = Tree::default();
    put_lamp(&mut tree);
    put_eye(&mut tree);
    tree.put(
        STATEMENTS,
        "Record `Answers` in `lamp/specs/Answers.antt`, filled by `lamp/proofs/Answers.antt`.\n\n\
         | what it says | statement | where | proved in |\n|---|---|---|---|\n\
         | all lamps are lit, one of them brightly | `AllLit`, `NoneDark`, `OneBright` | `lamp/specs/Laws.antt` | `lamp/proofs/Laws.antt` |\n\n\
         Record `Sight` in `eye/specs/Answers.antt`, filled by `eye/proofs/Sight.antt`.\n\n\
         | what it says | statement | where |\n|---|---|---|\n\
         | each is seen | `Seen` | `lamp/specs/Far.antt` |\n",
    );
    tree
}

/// What is told where a text stands in another's place.
fn faults_after(path: &str, old: &str, new: &str) -> Vec<String> {
    statement_faults(&small().replaced(path, old, new))
}

/// The one fault that is left.
fn fault_after(path: &str, old: &str, new: &str) -> String {
    let found = faults_after(path, old, new);
    assert_eq!(found.len(), 1, "{found:#?}");
    found[0].clone()
}

#[test]
fn a_repository_in_order() {
    assert_eq!(statement_faults(&small()), Vec::<String>::new());
}

#[test]
fn a_statement_without_a_field() {
    let told = fault_after(RECORD, "  pub all_lit : AllLit\n", "");
    assert_eq!(told, "`AllLit` of crates/lamp/specs/Laws.antt is a statement and a field of no record, so its proof could be lost unseen.");
    let told = faults_after(LAWS, "abbrev pub Lit : Lamp → Type 0", "pub Lit : Type 0");
    let expected = [
        "`Lit` of crates/lamp/specs/Laws.antt is a statement and a field of no record, so its proof could be lost unseen.",
        "`Lit` of crates/lamp/specs/Laws.antt is a statement and has no line in docs/STATEMENTS.md.",
    ];
    assert_eq!(told, expected);
}

#[test]
fn a_record_as_a_statement() {
    let told = fault_after(RECORD, "  pub one_bright : OneBright\n", "");
    assert_eq!(told, "`OneBright` of crates/lamp/specs/Laws.antt is a statement and a field of no record, so its proof could be lost unseen.");
    let told = faults_after(PROOFS, "pub one_bright : OneBright", "one_bright : OneBright");
    let expected = [
        "The field `one_bright` of the record `Answers` in crates/lamp/specs/Answers.antt has no statement of specs/ for its type.",
        "docs/STATEMENTS.md says that the statement `OneBright` is stated in `lamp/specs/Laws.antt`; it is not.",
    ];
    assert_eq!(told, expected);
}

#[test]
fn a_theorem_with_another_name() {
    let told = fault_after(PROOFS, "pub none_dark :", "pub not_dark :");
    assert_eq!(told, "The theorem `not_dark` of crates/lamp/proofs/Laws.antt proves `NoneDark`, so its name has to be `none_dark`.");
}

/// Where its file takes a definition of that name from elsewhere, the theorem has `_lem` behind it.
#[test]
fn a_theorem_beside_a_definition_of_its_name() {
    let told = fault_after(PROOFS, "pub none_dark :", "pub none_dark_lem :");
    assert_eq!(told, "The theorem `none_dark_lem` of crates/lamp/proofs/Laws.antt proves `NoneDark`, so its name has to be `none_dark`.");
    let takes = "use Rattle.lamp.specs.Dark.{none_dark}\n\npub lemma";
    let tree = small().replaced(PROOFS, "pub none_dark :", "pub none_dark_lem :");
    assert!(statement_faults(&tree.replaced(PROOFS, "pub lemma", takes)).is_empty());
}

#[test]
fn a_statement_in_two_fields() {
    let told = faults_after(
        RECORD,
        "  pub all_lit : AllLit\n",
        "  pub all_lit : AllLit\n  pub again : AllLit\n",
    );
    assert_eq!(told[0], "`AllLit` of crates/lamp/specs/Laws.antt is a field of records 2 times.");
    assert_eq!(told[1], "The term `answers` of crates/lamp/proofs/Answers.antt does not fill the field `again` of `Answers`.");
}

#[test]
fn a_field_that_is_no_statement() {
    let told = faults_after(
        RECORD,
        "  pub all_lit : AllLit\n",
        "  pub all_lit : AllLit\n  pub row : Row\n",
    );
    let expected = [
        "The field `row` of the record `Answers` in crates/lamp/specs/Answers.antt has no statement of specs/ for its type.",
        "The term `answers` of crates/lamp/proofs/Answers.antt does not fill the field `row` of `Answers`.",
    ];
    assert_eq!(told, expected);
}

#[test]
fn a_record_that_no_term_fills_or_two() {
    let expected = "0 terms of proofs/ fill the record `Answers` of crates/lamp/specs/Answers.antt; it has to be one.";
    assert_eq!(fault_after(TERM, "pub answers : Answers", "answers : Answers"), expected);
    let mut tree = small();
    tree.remove(TERM);
    assert_eq!(statement_faults(&tree), [expected]);
    let told =
        fault_after(TERM, "pub answers", "pub others : Answers\nothers = answers\n\npub answers");
    assert_eq!(told, "2 terms of proofs/ fill the record `Answers` of crates/lamp/specs/Answers.antt; it has to be one.");
}

#[test]
fn a_term_that_lacks_a_field() {
    let told = fault_after(TERM, "      all_lit = all_lit;\n", "");
    assert_eq!(told, "The term `answers` of crates/lamp/proofs/Answers.antt does not fill the field `all_lit` of `Answers`.");
}

#[test]
fn a_statement_without_a_line_or_with_two() {
    let told = fault_after(STATEMENTS, ", `OneBright`", "");
    assert_eq!(told, "`OneBright` of crates/lamp/specs/Laws.antt is a statement and has no line in docs/STATEMENTS.md.");
    let line = "| each is seen | `Seen` | `lamp/specs/Far.antt` |\n";
    assert_eq!(fault_after(STATEMENTS, line, ""), "`Seen` of crates/lamp/specs/Far.antt is a statement and has no line in docs/STATEMENTS.md.");
    let told = fault_after(STATEMENTS, line, &line.repeat(2));
    assert_eq!(told, "`Seen` of crates/lamp/specs/Far.antt has 2 lines in docs/STATEMENTS.md.");
    let told = fault_after(STATEMENTS, "| each is seen |", "|  |");
    assert_eq!(
        told,
        "The line of `Seen` in docs/STATEMENTS.md does not tell in words what is stated."
    );
    let mut tree = small();
    tree.remove(STATEMENTS);
    assert_eq!(statement_faults(&tree), ["There is no docs/STATEMENTS.md."]);
}

#[test]
fn a_line_with_a_name_that_is_no_statement() {
    for name in ["Lit", "Row", "Answers", "Seen", "Dark"] {
        let told = fault_after(STATEMENTS, "`AllLit`, ", &format!("`AllLit`, `{name}`, "));
        assert_eq!(told, format!("docs/STATEMENTS.md says that the statement `{name}` is stated in `lamp/specs/Laws.antt`; it is not."));
    }
}

#[test]
fn a_line_with_another_file_or_none() {
    let place = "`lamp/specs/Far.antt`";
    let told = faults_after(STATEMENTS, place, "`lamp/specs/Laws.antt`");
    let expected = [
        "`Seen` of crates/lamp/specs/Far.antt is a statement and has no line in docs/STATEMENTS.md.",
        "docs/STATEMENTS.md says that the statement `Seen` is stated in `lamp/specs/Laws.antt`; it is not.",
        "docs/STATEMENTS.md names `lamp/specs/Laws.antt`, where nothing of `Seen` is stated.",
    ];
    assert_eq!(told, expected);
    let told = fault_after(STATEMENTS, place, &format!("{place}, `lamp/specs/Laws.antt`"));
    assert_eq!(told, expected[2]);
    assert_eq!(
        faults_after(STATEMENTS, place, "there")[1],
        "docs/STATEMENTS.md does not say where `Seen` is stated."
    );
}

#[test]
fn a_line_with_another_proof_or_none() {
    let place = "`lamp/proofs/Laws.antt`";
    let told = faults_after(STATEMENTS, place, "`lamp/proofs/Far.antt`");
    assert_eq!(told[0], "docs/STATEMENTS.md says that the statement `AllLit` is proved in `lamp/proofs/Far.antt`; it is not.");
    assert_eq!(told.len(), 4, "{told:#?}");
    let told = fault_after(STATEMENTS, place, &format!("{place}, `eye/proofs/Sight.antt`"));
    assert_eq!(told, "docs/STATEMENTS.md names `eye/proofs/Sight.antt`, where nothing of `AllLit`, `NoneDark`, `OneBright` is proved.");
    let told = fault_after(STATEMENTS, place, "there");
    assert_eq!(
        told,
        "docs/STATEMENTS.md does not say where `AllLit`, `NoneDark`, `OneBright` is proved."
    );
}

#[test]
fn a_record_or_a_term_that_the_page_does_not_name() {
    let expected = "docs/STATEMENTS.md does not say: record `Sight` in `eye/specs/Answers.antt`, filled by `eye/proofs/Sight.antt`.";
    for (old, new) in [
        ("`Sight`", "`Answers`"),
        ("`eye/specs/Answers.antt`", "`specs/Answers.antt`"),
        ("`eye/proofs/Sight.antt`", "one term"),
    ] {
        assert_eq!(fault_after(STATEMENTS, old, new), expected);
    }
    let over_two_lines = "filled by\n`eye/proofs/Sight.antt`";
    assert!(
        faults_after(STATEMENTS, "filled by `eye/proofs/Sight.antt`", over_two_lines).is_empty()
    );
}
