//! No proof of any crate opens the rules of a kind of part, but for the few that may.

use house::{unsealed, Tree};

#[test]
fn the_rules_of_a_kind_stay_sealed() {
    let found = unsealed(&Tree::of_this_repository());
    assert!(found.is_empty(), "\n\n{}\n", found.join("\n"));
}

/// What is told of one proof file with this clause.
fn told(path: &str, clause: &str) -> Vec<String> {
    let mut tree = Tree::default();
    tree.put(
        path,
        &format!("pub kept : Kept\nkept = refl\n\npub lost : Lost\n{clause}\nlost = refl\n"),
    );
    unsealed(&tree)
}

const FAULT: &str = "the proof `lost` unfolds `rules_of`, so it is not one for both kinds of part; only those that rust/house/src/sealed.rs lists may.";

#[test]
fn a_proof_that_opens_them_in_any_crate() {
    for path in [
        "crates/arbiter/proofs/Timer.antt",
        "crates/audit/proofs/Blocking.antt",
        "crates/bus/proofs/idle/Answers.antt",
    ] {
        for clause in [
            "unfolding rules_of",
            "unfolding losses rules_of lost",
            "unfolding losses\n    lost rules_of",
        ] {
            assert_eq!(told(path, clause), [format!("{path}, line 5: {FAULT}")], "{clause}");
        }
    }
}

/// A type over several lines, and a proof that is set in.
#[test]
fn the_proof_is_told_by_its_name() {
    let path = "crates/audit/proofs/Blocking.antt";
    let mut tree = Tree::default();
    tree.put(path, "pub lost : (k : Kind)\n    → Lost k\nunfolding rules_of\nlost k = refl\n");
    assert_eq!(unsealed(&tree), [format!("{path}, line 3: {FAULT}")]);
    tree.put(path, "module _ (k : Kind) where\n  other : Other\n  other = refl\n\n  lost : Lost\n  unfolding rules_of\n  lost = refl\n");
    assert_eq!(unsealed(&tree), [format!("{path}, line 6: {FAULT}")]);
}

/// One proof of a file may, and another beside it may not.
#[test]
fn what_may_open_them() {
    let path = "crates/sheets/proofs/InTime.antt";
    let mut tree = Tree::default();
    let met = "pub premises_met : PremisesMet\nunfolding levels\n    never rules_of\npremises_met = refl\n";
    tree.put(path, met);
    assert!(unsealed(&tree).is_empty());
    tree.put(path, &format!("{met}\npub lost : Lost\nunfolding rules_of\nlost = refl\n"));
    assert_eq!(unsealed(&tree), [format!("{path}, line 7: {FAULT}")]);
}

#[test]
fn one_that_may_and_does_not() {
    let told = told("crates/arbiter/proofs/KindKept.antt", "unfolding losses");
    assert_eq!(told, ["rust/house/src/sealed.rs lets `limit_some` of crates/arbiter/proofs/KindKept.antt unfold `rules_of`, and it does not."]);
}

/// What the check unfolds for a function, or for a whole crate, stands in its code.
#[test]
fn code_that_opens_them() {
    let told = |text: &str| {
        let mut tree = Tree::default();
        tree.put("crates/bus/src/lib.rt", text);
        unsealed(&tree)
    };
    let fault = FAULT.replace("`lost`", "`idle`");
    let function = "pub fn idle(d: Device) -> bool";
    for (attribute, line) in [
        ("#[tactic(auto, unfolding(arbiter::specs::Rules::rules_of))]", 2),
        ("#[tactic(auto, unfolding(arbiter::specs::Rules::rolls, arbiter::specs::Rules::rules_of))]", 2),
        ("#[tactic(\n    auto,\n    unfolding(\n        arbiter::specs::Rules::rules_of,\n    )\n)]", 4),
    ] {
        let told = told(&format!("// A bus.\n{attribute}\n{function}\n"));
        assert_eq!(told, [format!("crates/bus/src/lib.rt, line {line}: {fault}")]);
    }
    let whole = told("#![tactic(auto, unfolding(arbiter::specs::Rules::rules_of))]\n");
    assert!(whole[0].starts_with("crates/bus/src/lib.rt, line 1: the proof `tactic` unfolds"));
    let other = format!("#[tactic(auto, unfolding(arbiter::specs::Rules::rolls))]\n{function}\n");
    assert!(told(&other).is_empty());
}

#[test]
fn other_names_and_other_places() {
    for clause in [
        "unfolding losses",
        "unfolding rules_of_all",
        "-- not unfolding rules_of",
        "rules_of = unfolding",
    ] {
        assert!(told("crates/arbiter/proofs/Timer.antt", clause).is_empty(), "{clause}");
    }
    assert!(told("crates/arbiter/specs/Rules.antt", "unfolding rules_of").is_empty());
}
