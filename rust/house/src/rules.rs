//! Holds `docs/RULES.md` to the code, to the scripts of `traces/rules/` and to their pictures: whatever a rule names is there, its answers are
//! those of its script's listing, and every script and every picture is a rule's.
//!
//! A rule begins with "### " and ends where the next heading stands. It has these lines, each once, between others:
//!
//! - a sentence, one alone, in a paragraph of its own;
//! - the picture, as `![words](pictures/rules/NAME.svg)`;
//! - "- Script: " with `traces/rules/NAME.script`, and then events as they stand there, each with its answers after it. An event that comes
//!   several times in a row has an answer for each that differs from the one before.
//! - "- Definition: " with names and then their file, as on `docs/SENTENCES.md`;
//! - "- Carried by: " with statements and promises, as there.
//!
//! A name between backquotes outside of the last three has any form of `names.rs`.

use crate::names::Names;
use crate::sentences::definition_faults;
use crate::tables::quoted;
use crate::tree::Tree;

/// Where the rules stand.
pub const RULES: &str = "docs/RULES.md";

/// The folders of the scripts, with their listings, and of the pictures as the page names it.
const SCRIPTS: &str = "traces/rules/";
const PICTURES: &str = "pictures/rules/";

const SCRIPT: &str = "- Script: ";
const DEFINITION: &str = "- Definition: ";
const CARRIED: &str = "- Carried by: ";

/// What is wrong with the page, a sentence each.
pub fn rule_faults(tree: &Tree) -> Vec<String> {
    let Some(text) = tree.text(RULES) else {
        return vec![format!("There is no {RULES}.")];
    };
    let names = Names::of(tree);
    let rules = read_rules(text);
    let mut found = Vec::new();
    for rule in &rules {
        let told = rule.faults(tree, &names);
        found.extend(told.iter().map(|fault| format!("{RULES}, \"{}\": {fault}", rule.title)));
    }
    let cites =
        |line: &str| [SCRIPT, DEFINITION, CARRIED].iter().any(|part| line.starts_with(part));
    let others = text.lines().filter(|line| !cites(line)).flat_map(quoted);
    found.extend(others.filter(|name| !names.is_known(name)).map(|name| {
        format!("{RULES} names `{name}` beside what its rules cite, and there is no such thing.")
    }));
    found.extend(file_faults(tree, &rules));
    found
}

/// A rule: its heading and the lines below it.
struct Rule<'a> {
    title: &'a str,
    lines: Vec<&'a str>,
}

fn read_rules(text: &str) -> Vec<Rule<'_>> {
    let mut rules = Vec::<Rule>::new();
    let mut inside = false;
    for line in text.lines() {
        if let Some(title) = line.strip_prefix("### ") {
            rules.push(Rule { title, lines: Vec::new() });
            inside = true;
        } else if line.starts_with('#') {
            inside = false;
        } else if let Some(rule) = rules.last_mut().filter(|_| inside) {
            rule.lines.push(line);
        }
    }
    rules
}

impl Rule<'_> {
    /// What stands after this beginning, in the one line that has it.
    fn part(&self, beginning: &str) -> Result<&str, String> {
        let mut parts = self.lines.iter().filter_map(|line| line.strip_prefix(beginning));
        match (parts.next(), parts.next()) {
            (Some(part), None) => Ok(part),
            (None, _) => Err(format!("no line begins with \"{beginning}\".")),
            _ => Err(format!("several lines begin with \"{beginning}\".")),
        }
    }

    /// The name of its script: that of the file.
    fn name(&self) -> Option<String> {
        let path = quoted(self.part(SCRIPT).ok()?).into_iter().next()?;
        path.strip_prefix(SCRIPTS)?.strip_suffix(".script").map(str::to_string)
    }

    fn faults(&self, tree: &Tree, names: &Names) -> Vec<String> {
        let mut told = Vec::new();
        for beginning in ["![", SCRIPT, DEFINITION, CARRIED] {
            told.extend(self.part(beginning).err());
        }
        told.extend(self.sentence_fault());
        if let Ok(cell) = self.part(DEFINITION) {
            if quoted(cell).is_empty() {
                told.push("no definition is named.".to_string());
            }
            told.extend(definition_faults(names, cell));
        }
        let carried = self.part(CARRIED).map(quoted).unwrap_or_default();
        if carried.is_empty() {
            told.push("nothing is named that carries it.".to_string());
        }
        told.extend(carried.iter().filter(|name| !names.carries(name)).map(|name| {
            format!("`{name}` is no statement of that crate, and no public call with a promise.")
        }));
        match self.name() {
            None => told.push(format!("its script is not named as `{SCRIPTS}NAME.script`.")),
            Some(name) => told.extend(self.run_faults(tree, &name)),
        }
        told
    }

    /// The first paragraph is one sentence.
    fn sentence_fault(&self) -> Option<String> {
        let lines = self.lines.iter().skip_while(|line| line.is_empty());
        let words: Vec<&str> = lines.take_while(|line| !line.is_empty()).copied().collect();
        let sentence = words.join(" ");
        let is_one = sentence.ends_with('.') && !sentence.contains(". ");
        (!is_one || sentence.starts_with(['!', '-']))
            .then(|| "the first paragraph is not one sentence.".to_string())
    }

    /// Its picture is that of its script, and the answers are those of the listing.
    fn run_faults(&self, tree: &Tree, name: &str) -> Vec<String> {
        let mut told = Vec::new();
        let picture = format!("]({PICTURES}{name}.svg)");
        if !self.part("![").is_ok_and(|line| line.ends_with(&picture)) {
            told.push(format!("its picture is not {PICTURES}{name}.svg, that of its script."));
        }
        let text = |ending: &str| tree.text(&format!("{SCRIPTS}{name}.{ending}"));
        let (Some(script), Some(listing)) = (text("script"), text("listing")) else {
            told.push(format!("{SCRIPTS} has no {name}.script with its listing."));
            return told;
        };
        let answered = answered(script, listing);
        let names = quoted(self.part(SCRIPT).unwrap_or_default());
        let cited = cited(&names[1..]);
        if cited.is_empty() {
            told.push("no answer of its script is told.".to_string());
        }
        for (event, answers) in cited {
            if !answered.iter().any(|(line, all)| *line == event && *all == answers) {
                let answers = answers.join("`, `");
                told.push(format!("no line `{event}` of its script has the answers `{answers}`."));
            }
        }
        told
    }
}

/// Events as they are cited, each with the answers after it.
fn cited(names: &[String]) -> Vec<(&str, Vec<&str>)> {
    let mut found: Vec<(&str, Vec<&str>)> = Vec::new();
    for name in names {
        let is_answer = name.len() == 8 && name.bytes().all(|b| b.is_ascii_hexdigit());
        match found.last_mut().filter(|_| is_answer) {
            Some((_, answers)) => answers.push(name),
            None => found.push((name, Vec::new())),
        }
    }
    found
}

/// The lines of a script that are events, each with the answers that differ from the one before.
fn answered<'a>(script: &'a str, listing: &'a str) -> Vec<(&'a str, Vec<&'a str>)> {
    let mut answers = listing.lines().skip(1);
    let lines = script.lines().map(|line| line.split('#').next().unwrap_or_default().trim());
    let events = lines.filter(|line| {
        !line.is_empty() && !line.starts_with("pins ") && !line.starts_with("part ")
    });
    let often = |line: &str| line.strip_prefix("tick ").and_then(|n| n.parse().ok()).unwrap_or(1);
    let each = events.map(|line| {
        let mut all: Vec<&str> = answers.by_ref().take(often(line)).collect();
        all.dedup();
        (line, all)
    });
    each.collect()
}

/// Every script is one rule's, and every picture a script's.
fn file_faults(tree: &Tree, rules: &[Rule]) -> Vec<String> {
    let mut found = Vec::new();
    let named: Vec<String> = rules.iter().filter_map(Rule::name).collect();
    let stem = |path: &str, start: &str, end: &str| {
        let name = path.strip_prefix(start).and_then(|rest| rest.strip_suffix(end));
        name.unwrap_or(path).to_string()
    };
    for path in tree.paths(SCRIPTS, ".script") {
        let name = stem(path, SCRIPTS, ".script");
        let rules = named.iter().filter(|rule| **rule == name).count();
        if rules != 1 {
            found.push(format!(
                "{rules} rules of {RULES} have the script {path}; it has to be one."
            ));
        }
        if tree.text(&format!("docs/{PICTURES}{name}.svg")).is_none() {
            found.push(format!("{path} has no picture docs/{PICTURES}{name}.svg."));
        }
    }
    let folder = format!("docs/{PICTURES}");
    for path in tree.paths(&folder, ".svg") {
        let name = stem(path, &folder, ".svg");
        if tree.text(&format!("{SCRIPTS}{name}.script")).is_none() {
            found.push(format!("{path} is the picture of no script in {SCRIPTS}."));
        }
    }
    found
}
