//! The names that `docs/SENTENCES.md` and `docs/RULES.md` use, each told by its form:
//!
//! - `bus/Quiet`, one capital after the crate: a statement of that crate, as `docs/STATEMENTS.md` lists it.
//! - `bus::idle`: a public call of that crate with a promise.
//! - `M3` and `M3.2`: a marked example of document 01, all its rows or its second, in the table `marked` of the arbiter.
//! - `bus/Examples/rows` and `bus/Examples/rows: the line is high`: a table of `crates/bus/specs/Examples.antt`, all of it or the rows under the
//!   comment that begins so.
//! - `rust/bus/tests/idle.rs::never_idle`: a test.
//! - `bus/idle_when_busy`, in small letters: an edit that shows a wrong answer refused.
//! - `crates/listing/stdout`, `docs/IMAGE.md`: a file, of a program's stored output or of words.

use crate::calls::calls_of;
use crate::edits::fault_of;
use crate::stated::{stated, Defined};
use crate::tree::Tree;
use std::collections::BTreeSet;

/// The table of document 01's marked examples.
const MARKS: (&str, &str) = ("crates/arbiter/specs/Marks.antt", "marked");

/// What there is to be named.
pub struct Names<'a> {
    tree: &'a Tree,
    statements: BTreeSet<Defined>,
    /// Public calls with a promise.
    calls: BTreeSet<String>,
}

impl Names<'_> {
    pub fn of(tree: &Tree) -> Names<'_> {
        let promising = calls_of(tree).into_iter().filter(|call| call.has("ensures"));
        Names {
            tree,
            statements: stated(tree).statements,
            calls: promising.map(|call| call.name).collect(),
        }
    }

    /// True if a file under `crates/` defines this name: a definition of antt, or an item of Rattle.
    pub fn is_defined(&self, name: &str, file: &str) -> bool {
        let text = self.tree.text(&format!("crates/{file}")).unwrap_or_default();
        if file.ends_with(".rt") {
            let mut lines = text.lines().map(|line| line.strip_prefix("pub ").unwrap_or(line));
            lines.any(|line| begins(line, &ITEMS, name))
        } else {
            text.lines().any(|line| begins(line, &DEFINITIONS, name))
        }
    }

    /// A statement, or a call with a promise.
    pub fn carries(&self, name: &str) -> bool {
        self.is_statement(name) || self.calls.contains(name)
    }

    /// An example, a test, a statement that shows by runs, an edit, or a file.
    pub fn shows(&self, name: &str) -> bool {
        self.is_mark(name)
            || self.is_table(name)
            || self.is_test(name)
            || self.is_statement(name)
            || self.is_edit(name)
            || self.is_file(name)
    }

    /// Anything that can be named.
    pub fn is_known(&self, name: &str) -> bool {
        self.carries(name) || self.shows(name)
    }

    fn is_statement(&self, name: &str) -> bool {
        name.split_once('/').is_some_and(|(krate, name)| {
            let folder = format!("crates/{krate}/specs/");
            self.statements.iter().any(|s| s.name == name && s.file.starts_with(&folder))
        })
    }

    fn is_mark(&self, name: &str) -> bool {
        let (mark, row) =
            name.split_once('.').map_or((name, None), |(mark, row)| (mark, Some(row)));
        let rows = rows_under(self.block(MARKS.0, MARKS.1), &format!("{mark} "));
        match row {
            _ if !mark.starts_with('M') => false,
            None => rows > 0,
            Some(row) => row.parse().is_ok_and(|row: usize| (1..=rows).contains(&row)),
        }
    }

    fn is_table(&self, name: &str) -> bool {
        let (table, words) =
            name.split_once(": ").map_or((name, ""), |(table, words)| (table, words));
        let parts: Vec<&str> = table.split('/').collect();
        let [krate, file, table] = parts.as_slice() else {
            return false;
        };
        let block = self.block(&format!("crates/{krate}/specs/{file}.antt"), table);
        let comments = || block.iter().filter_map(|line| line.trim_start().strip_prefix("-- "));
        !block.is_empty()
            && (words.is_empty() || comments().any(|comment| comment.starts_with(words)))
    }

    /// The lines of a definition of a file, up to the first that is empty.
    fn block(&self, file: &str, name: &str) -> Vec<&str> {
        let lines = self.tree.text(file).unwrap_or_default().lines();
        lines
            .skip_while(|line| !begins(line, &DEFINITIONS, name))
            .take_while(|line| !line.is_empty())
            .collect()
    }

    fn is_test(&self, name: &str) -> bool {
        name.split_once("::").is_some_and(|(file, test)| {
            let lines: Vec<&str> = self.tree.text(file).unwrap_or_default().lines().collect();
            let head = format!("fn {test}()");
            lines.windows(2).any(|two| two[0] == "#[test]" && two[1].starts_with(&head))
        })
    }

    fn is_edit(&self, name: &str) -> bool {
        name.split('/').count() == 2 && fault_of(self.tree, name).is_none()
    }

    fn is_file(&self, name: &str) -> bool {
        self.tree.text(name).is_some()
    }
}

/// How a definition of antt begins, at the margin; X stands for its name.
const DEFINITIONS: [&str; 5] =
    ["pub X :", "abbrev pub X :", "unfoldable pub X :", "pub record X ", "pub data X "];

/// How an item of Rattle begins, after `pub` or without.
const ITEMS: [&str; 5] = ["fn X(", "fn X<", "const X:", "struct X ", "enum X "];

fn begins(line: &str, heads: &[&str], name: &str) -> bool {
    heads.iter().any(|head| line.starts_with(&head.replace('X', name)))
}

/// How many rows of a table, each with its `is`, stand under the comment that begins so, up to the next comment.
fn rows_under(block: Vec<&str>, comment: &str) -> usize {
    let is_comment = |line: &&str| line.trim_start().starts_with("-- ");
    let wanted = format!("-- {comment}");
    let lines =
        block.into_iter().skip_while(|line| !line.trim_start().starts_with(&wanted)).skip(1);
    lines.take_while(|line| !is_comment(line)).filter(|line| line.contains(" is ")).count()
}
