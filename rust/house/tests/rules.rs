//! docs/RULES.md names nothing that is not there, and each script of the rules, with its picture, is one rule's. Each way in which it could be
//! otherwise is told in a sentence, seen here on a small repository.

use house::{rule_faults, Tree, RULES};

#[test]
fn every_name_is_there() {
    let tree = Tree::of_this_repository();
    let found = rule_faults(&tree);
    assert!(found.is_empty(), "\n\n{}\n", found.join("\n"));
    let scripts = tree.paths("traces/rules/", ".script").count();
    assert!(scripts >= 30, "{scripts} scripts");
}

const SPECS: &str = "crates/lamp/specs/Light.antt";
const SCRIPT: &str = "traces/rules/lit.script";
const LISTING: &str = "traces/rules/lit.listing";
const PICTURE: &str = "docs/pictures/rules/lit.svg";

/// A crate with a definition and a statement, a script with its listing and picture, and the page with its one rule.
fn small() -> Tree {
    let mut tree = Tree::default();
    tree.put(
        SPECS,
        "abbrev pub lit : Bool → Bool\nlit on = on\n\n\
         abbrev pub AllLit : Type 0\nAllLit = lit true ≡ true\n",
    );
    tree.put(
        SCRIPT,
        "# One word.\npins 0 0 0 1        # address 71h\npart PCA9641\n\nwrite 0 01          # on\ntick 3\nread 0\n",
    );
    tree.put(LISTING, "71 0005\n0000200C\n0000210C\n0000210C\n0000220C\n0001220C\n");
    tree.put(PICTURE, "<svg/>");
    tree.put(
        RULES,
        "# Rules\n\nSee `lamp/AllLit`.\n\n## Lamps\n\nThey are lit, as `docs/RULES.md` tells.\n\n### A lamp\n\nIt is lit,\nand stays so.\n\n\
         **Trap:** It is not dark.\n\n![A lamp](pictures/rules/lit.svg)\n\n\
         - Script: `traces/rules/lit.script`: `tick 3` answers `0000210C` and then `0000220C`, `read 0` answers `0001220C`.\n\
         - Definition: `lit`, `lamp/specs/Light.antt`.\n\
         - Carried by: `lamp/AllLit`.\n",
    );
    tree
}

/// What is told where a text stands in another's place.
fn faults_after(path: &str, old: &str, new: &str) -> Vec<String> {
    rule_faults(&small().replaced(path, old, new))
}

/// The one fault that is left, without the rule that it is of.
fn fault_after(path: &str, old: &str, new: &str) -> String {
    let found = faults_after(path, old, new);
    assert_eq!(found.len(), 1, "{found:#?}");
    let told = &found[0];
    told.strip_prefix("docs/RULES.md, \"A lamp\": ").unwrap_or(told).to_string()
}

#[test]
fn a_repository_in_order() {
    assert_eq!(rule_faults(&small()), Vec::<String>::new());
    let mut tree = small();
    tree.remove(RULES);
    assert_eq!(rule_faults(&tree), ["There is no docs/RULES.md."]);
}

#[test]
fn names_that_are_not_there() {
    let told = fault_after(SPECS, "abbrev pub lit :", "abbrev pub lights :");
    assert_eq!(told, "`lit` is not defined in crates/lamp/specs/Light.antt.");
    let told = fault_after(RULES, "`lit`, `lamp/specs/Light.antt`", "`lit`");
    assert_eq!(told, "`lit` is a definition without its file, or a file without a definition.");
    let told = fault_after(RULES, "`lit`, `lamp/specs/Light.antt`", "none");
    assert_eq!(told, "no definition is named.");
    let told = fault_after(RULES, "by: `lamp/AllLit`", "by: `lamp/AllDark`");
    assert_eq!(
        told,
        "`lamp/AllDark` is no statement of that crate, and no public call with a promise."
    );
    let told = fault_after(RULES, "by: `lamp/AllLit`", "by: nobody");
    assert_eq!(told, "nothing is named that carries it.");
    for (old, new) in
        [("See `lamp/AllLit`", "See `lamp/AllDark`"), ("It is not dark.", "Not `lamp/AllDark`.")]
    {
        assert_eq!(
            fault_after(RULES, old, new),
            "docs/RULES.md names `lamp/AllDark` beside what its rules cite, and there is no such thing."
        );
    }
}

#[test]
fn lines_that_are_not_there_or_twice() {
    let line = "- Definition: `lit`, `lamp/specs/Light.antt`.\n";
    assert_eq!(fault_after(RULES, line, ""), "no line begins with \"- Definition: \".");
    let told = fault_after(RULES, line, &line.repeat(2));
    assert_eq!(told, "several lines begin with \"- Definition: \".");
    let told = fault_after(RULES, "and stays so.", "and stays so. It is bright.");
    assert_eq!(told, "the first paragraph is not one sentence.");
    let told = fault_after(RULES, "It is lit,\nand stays so.\n\n**Trap:** It is not dark.\n\n", "");
    assert_eq!(told, "the first paragraph is not one sentence.");
}

#[test]
fn answers_that_the_script_has_not() {
    let told = fault_after(RULES, "`0001220C`", "`0001210C`");
    assert_eq!(told, "no line `read 0` of its script has the answers `0001210C`.");
    let told = fault_after(RULES, " and then `0000220C`", "");
    assert_eq!(told, "no line `tick 3` of its script has the answers `0000210C`.");
    let told = fault_after(RULES, "`tick 3`", "`tick 2`");
    assert_eq!(told, "no line `tick 2` of its script has the answers `0000210C`, `0000220C`.");
    let told = fault_after(LISTING, "0000220C\n0001220C", "0000210C\n0001220C");
    assert_eq!(told, "no line `tick 3` of its script has the answers `0000210C`, `0000220C`.");
    let cited = ": `tick 3` answers `0000210C` and then `0000220C`, `read 0` answers `0001220C`.";
    assert_eq!(fault_after(RULES, cited, "."), "no answer of its script is told.");
}

#[test]
fn scripts_and_pictures_without_a_rule() {
    let mut tree = small();
    tree.put("traces/rules/dark.script", "pins 0 0 0 1\npart PCA9641\ntick\n");
    let expected = [
        "0 rules of docs/RULES.md have the script traces/rules/dark.script; it has to be one.",
        "traces/rules/dark.script has no picture docs/pictures/rules/dark.svg.",
    ];
    assert_eq!(rule_faults(&tree), expected);
    let mut tree = small();
    tree.put("docs/pictures/rules/dark.svg", "<svg/>");
    assert_eq!(
        rule_faults(&tree),
        ["docs/pictures/rules/dark.svg is the picture of no script in traces/rules/."]
    );
    let mut tree = small();
    tree.remove(PICTURE);
    assert_eq!(
        rule_faults(&tree),
        ["traces/rules/lit.script has no picture docs/pictures/rules/lit.svg."]
    );
    let told = fault_after(RULES, "(pictures/rules/lit.svg)", "(pictures/rules/dark.svg)");
    assert_eq!(told, "its picture is not pictures/rules/lit.svg, that of its script.");
    let mut tree = small();
    tree.remove(SCRIPT);
    let expected = [
        "docs/RULES.md, \"A lamp\": traces/rules/ has no lit.script with its listing.",
        "docs/pictures/rules/lit.svg is the picture of no script in traces/rules/.",
    ];
    assert_eq!(rule_faults(&tree), expected);
}

#[test]
fn a_script_with_two_rules_or_another_name() {
    let page = small().text(RULES).unwrap().to_string();
    let (_, rule) = page.split_once("### A lamp\n").unwrap();
    let told = faults_after(RULES, "## Lamps\n", &format!("### Another\n{rule}\n## Lamps\n"));
    assert_eq!(
        told,
        ["2 rules of docs/RULES.md have the script traces/rules/lit.script; it has to be one."]
    );
    let told = faults_after(RULES, "`traces/rules/lit.script`", "`lit.script`");
    assert_eq!(
        told[0],
        "docs/RULES.md, \"A lamp\": its script is not named as `traces/rules/NAME.script`."
    );
    assert_eq!(
        told[1..],
        ["0 rules of docs/RULES.md have the script traces/rules/lit.script; it has to be one."]
    );
}
