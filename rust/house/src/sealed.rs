//! The rules of a kind of part stay sealed: what holds of a step is proved once for both kinds, over any idle limit and pointer rule (request
//! #105). A proof that does not unfold `rules_of` cannot see which limit and which pointer rule a kind has, so it holds for both parts as
//! instances, and for any other. The proofs of every crate are looked at, and what the functions of its code have the check unfold; the few
//! that may unfold it are listed here with their grounds.

use crate::code::is_letter;
use crate::tree::Tree;

/// The definition of the two kinds' rules, in `crates/arbiter/specs/Rules.antt`.
const RULES: &str = "rules_of";

/// Proofs that may open the rules: a file under `crates/`, and the names in it.
type Openers = [(&'static str, &'static [&'static str])];

/// The one law of a limit that the other proofs use: it is not 0.
const LAW: &Openers = &[("arbiter/proofs/KindKept.antt", &["limit_some"])];

/// The functions that work the two rules out, which promise what `rules_of` gives.
const CODE: &Openers = &[
    ("fields/proofs/limit_of/Answers.antt", &["returns-in-Pca9641", "returns-in-Tpt29641"]),
    ("fields/proofs/rolls_over/Answers.antt", &["returns-in-Pca9641", "returns-in-Tpt29641"]),
];

/// Tables that are computed, row by row: examples, and runs that meet premises, reach values or come to a bound. A computed run has a part.
const TABLES: &Openers = &[
    ("advance/proofs/BoundWitness.antt", &["rows_hold"]),
    (
        "arbiter/proofs/HungRows.antt",
        &["long_rows_hold", "changed_rows_hold", "shown_rows_hold", "slow_clock_never_hung"],
    ),
    ("arbiter/proofs/Marks.antt", &["marks_hold", "readings_hold"]),
    ("arbiter/proofs/Witnesses.antt", &["witnesses_meet"]),
    ("audit/proofs/FurtherWitnesses.antt", &["grounds_meet", "slow_steady"]),
    ("audit/proofs/MoreWitnesses.antt", &["more_witnesses_meet"]),
    ("audit/proofs/SettingsWitnesses.antt", &["settings_witnesses_meet"]),
    ("audit/proofs/WaitWitnesses.antt", &["wait_witnesses_meet"]),
    ("guarantee/proofs/Boxes.antt", &["connected_05", "connected_25", "timed_ticks"]),
    ("guarantee/proofs/Devices.antt", &["zero_again", "one_rest"]),
    ("guarantee/proofs/MoreWitnesses.antt", &["more_witnesses_meet"]),
    ("guarantee/proofs/Necessary.antt", &["transfer_good"]),
    ("guarantee/proofs/Reboot.antt", &["computed"]),
    ("guarantee/proofs/StartsWitnesses.antt", &["computed"]),
    ("guarantee/proofs/Witnesses.antt", &["guarantee_witnesses_meet"]),
    ("layout/proofs/Reached.antt", &["contr_tests"]),
    ("longest/proofs/Witnesses.antt", &["longest_witnesses_meet"]),
    ("mail/proofs/Runs.antt", &["rows_hold", "premises_met"]),
    ("ranges/proofs/ExactWitnesses.antt", &["exact_witnesses_meet"]),
    ("ranges/proofs/RangeWitnesses.antt", &["all_cover_lem"]),
    ("recovery/proofs/CrashWitnesses.antt", &["reached", "kept_out"]),
    ("recovery/proofs/RecipeWitnesses.antt", &["refused_out", "recipe_witnesses_meet"]),
    ("recovery/proofs/ToldWitnesses.antt", &["told_witnesses_meet"]),
    ("rulebook/proofs/Rows.antt", &["rule_rows_hold"]),
    ("share/proofs/Examples.antt", &["rows_hold"]),
    ("sheets/proofs/Examples.antt", &["examples_hold"]),
    ("sheets/proofs/InTime.antt", &["premises_met"]),
    ("shelf/proofs/Examples.antt", &["examples_hold"]),
    ("shelf/proofs/ShelfWitnesses.antt", &["shelf_witnesses_meet"]),
];

/// The proofs that open the rules of a kind and may not, and those that may and do not, a sentence each.
pub fn unsealed(tree: &Tree) -> Vec<String> {
    let mut found = Vec::new();
    let proofs = tree.paths("crates/", ".antt").filter(|path| path.contains("/proofs/"));
    let code = tree.paths("crates/", ".rt").filter(|path| path.contains("/src/"));
    for path in proofs.chain(code) {
        let may: Vec<&str> = may_open(path);
        let text = tree.text(path).unwrap_or_default();
        let opened = if path.ends_with(".rt") { opened_by_code(text) } else { opened_in(text) };
        for (line, proof) in &opened {
            if !may.contains(&proof.as_str()) {
                found.push(format!(
                    "{path}, line {line}: the proof `{proof}` unfolds `{RULES}`, so it is not one for both kinds of part; only those that \
                     rust/house/src/sealed.rs lists may."
                ));
            }
        }
        for name in may.iter().filter(|name| !opened.iter().any(|(_, proof)| proof == *name)) {
            found.push(format!(
                "rust/house/src/sealed.rs lets `{name}` of {path} unfold `{RULES}`, and it does not."
            ));
        }
    }
    found
}

/// The proofs of a file that may open the rules.
fn may_open(path: &str) -> Vec<&'static str> {
    let all = LAW.iter().chain(CODE).chain(TABLES);
    all.filter(|(file, _)| path.strip_prefix("crates/") == Some(*file))
        .flat_map(|(_, proofs)| proofs.iter().copied())
        .collect()
}

/// The clauses `unfolding ..` that name the rules: the line on which each begins, and the proof that it belongs to. A clause goes on over the
/// lines that are set in further.
fn opened_in(text: &str) -> Vec<(usize, String)> {
    let lines: Vec<&str> = text.lines().collect();
    let mut found = Vec::new();
    for (at, line) in lines.iter().enumerate() {
        let Some(first) = line.trim_start().strip_prefix("unfolding ") else {
            continue;
        };
        let more = lines[at + 1..].iter().take_while(|next| inset(next) > inset(line));
        let mut names =
            first.split_whitespace().chain(more.flat_map(|next| next.split_whitespace()));
        if names.any(|name| name == RULES) {
            found.push((at + 1, proof_before(&lines[..at], inset(line))));
        }
    }
    found
}

/// The attributes `tactic(.., unfolding(..))` that name the rules: the line on which each begins, and the function after it. One of the whole
/// crate belongs to none, and counts as `tactic`.
fn opened_by_code(text: &str) -> Vec<(usize, String)> {
    let mut found = Vec::new();
    for (at, _) in text.match_indices("unfolding(") {
        let Some((list, after)) = text[at..].split_once(')') else {
            continue;
        };
        if list.split(|c: char| !is_letter(c)).any(|name| name == RULES) {
            let line = text[..at].lines().last().unwrap_or_default();
            let of_crate = line.trim_start().starts_with("#![");
            let head = after.split_once("fn ").map_or("", |(_, rest)| rest);
            let function = head.split(|c: char| !is_letter(c)).next().unwrap_or_default();
            let name = if of_crate { "tactic" } else { function };
            found.push((text[..at].matches('\n').count() + 1, name.to_string()));
        }
    }
    found
}

/// The name of the proof whose clause begins after these lines: the last of them that is set in no further begins its type.
fn proof_before(lines: &[&str], clause: usize) -> String {
    let is_head = |line: &&&str| !line.trim().is_empty() && inset(line) <= clause;
    let head = lines.iter().rev().find(is_head).copied().unwrap_or_default().trim_start();
    let name = head.strip_prefix("pub ").unwrap_or(head);
    name.split_whitespace().next().unwrap_or_default().to_string()
}

fn inset(line: &str) -> usize {
    line.len() - line.trim_start().len()
}
