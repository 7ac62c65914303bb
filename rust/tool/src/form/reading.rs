//! The text form, read line by line.

use std::error::Error;
use std::fmt;

use super::boxes::Boxes;
use super::nearest::nearest;
use super::values::value_of;
use crate::script::shown;
use crate::sheet::BoxName;

/// A typing error.
#[derive(Clone, Debug, PartialEq, Eq)]
pub struct Mistake {
    /// Where it is, from 1; nowhere if a line is missing.
    pub line: Option<usize>,
    /// What stands there, and what was expected.
    pub what: String,
}

impl Mistake {
    /// In words, with the name of the text.
    pub fn told(&self, name: &str) -> String {
        match self.line {
            Some(line) => format!("{name}, line {line}: {}", self.what),
            None => format!("{name}: {}", self.what),
        }
    }
}

impl fmt::Display for Mistake {
    fn fmt(&self, f: &mut fmt::Formatter) -> fmt::Result {
        match self.line {
            Some(line) => write!(f, "line {line}: {}", self.what),
            None => f.write_str(&self.what),
        }
    }
}

impl Error for Mistake {}

/// The boxes that a text fills in, or all its typing errors.
pub fn read(text: &[u8]) -> Result<Boxes, Vec<Mistake>> {
    let text = text_of(text).map_err(|mistake| vec![mistake])?;
    let mut reading = Reading::default();
    for (line, text) in (1..).zip(text.lines()) {
        reading.take_line(line, text);
    }
    reading.end()
}

/// True if the first line that says something is of a box, be it mistyped.
pub fn begins_with_box(text: &str) -> bool {
    let first = text.lines().map(code_of).find(|code| !code.is_empty());
    first.is_some_and(|code| match code.split_once(':') {
        Some((name, _)) => {
            let name = plain(name);
            named(&name, true).is_some() || !nearest(&name).is_empty()
        }
        None => named(&plain(code), false).is_some(),
    })
}

const NAMES: &str =
    "a box is \"Downstream reserve, ms\", \"Priority\" or \"Idle timer\", each with \
    \", controller 0\" or \", controller 1\"";

/// What was read so far.
#[derive(Default)]
struct Reading {
    /// The line of each box.
    lines: [Option<usize>; 6],
    values: Boxes,
    /// Boxes that a line with another name may be meant for.
    meant: [bool; 6],
    mistakes: Vec<Mistake>,
}

impl Reading {
    fn take_line(&mut self, line: usize, text: &str) {
        let code = code_of(text);
        if code.is_empty() {
            return;
        }
        if let Err(what) = self.take_box(line, code) {
            self.mistakes.push(Mistake { line: Some(line), what });
        }
    }

    fn take_box(&mut self, line: usize, code: &str) -> Result<(), String> {
        let (name, value) = match code.split_once(':') {
            Some((name, value)) => (plain(name), Some(value.trim())),
            None => (plain(code), None),
        };
        let Some((to, place)) = named(&name, value.is_some()) else {
            return Err(self.unknown(code, &name));
        };
        if let Some(before) = self.lines[place] {
            return Err(format!("'{to}' is there twice, on line {before} too"));
        }
        self.lines[place] = Some(line);
        let Some(value) = value else {
            return Err(format!("'{}', expected a colon and a value after \"{to}\"", shown(code)));
        };
        self.values[place] = value_of(to.section, value)?;
        Ok(())
    }

    /// What is said of a name that no box has.
    fn unknown(&mut self, code: &str, name: &str) -> String {
        let near = nearest(name);
        for (to, meant) in BoxName::all().zip(&mut self.meant) {
            *meant |= near.contains(&to);
        }
        let near: Vec<String> = near.iter().map(|to| format!("\"{to}\"")).collect();
        let nearest = match near.len() {
            0 => NAMES.to_string(),
            1 => format!("the nearest is {}", near[0]),
            _ => format!("the nearest are {}", near.join(" and ")),
        };
        let word = code.split(':').next().unwrap_or_default().trim();
        format!("'{}', expected the name of a box and a colon; {nearest}", shown(word))
    }

    fn end(mut self) -> Result<Boxes, Vec<Mistake>> {
        let there = self.lines.iter().zip(self.meant).map(|(line, meant)| line.is_some() || meant);
        let missing = BoxName::all().zip(there).filter(|(_, there)| !there).map(|(name, _)| name);
        let missing: Vec<String> = missing.map(|name| format!("\"{name}\"")).collect();
        if missing.len() == self.lines.len() && !self.mistakes.is_empty() {
            // No line is of a box, so it is another kind of text, and its first line says so.
            self.mistakes.truncate(1);
        } else if !missing.is_empty() {
            let what = format!(
                "no line for {}; a box that stays empty has a line too, with the word empty after the \
                 colon",
                missing.join(" and ")
            );
            self.mistakes.push(Mistake { line: None, what });
        }
        match self.mistakes.is_empty() {
            true => Ok(self.values),
            false => Err(self.mistakes),
        }
    }
}

/// The box of this name, and its place among them. Without a colon the value may stand right after the name.
fn named(name: &str, has_colon: bool) -> Option<(BoxName, usize)> {
    BoxName::all().zip(0..).find(|(to, _)| {
        let to = to.to_string();
        let whole = !has_colon || name.len() == to.len();
        whole && name.get(..to.len()).is_some_and(|front| front.eq_ignore_ascii_case(&to))
    })
}

/// A line without its comment.
fn code_of(line: &str) -> &str {
    line.split('#').next().unwrap_or_default().trim()
}

/// A name in lower case, with one space where there are several.
fn plain(name: &str) -> String {
    name.split_whitespace().collect::<Vec<_>>().join(" ").to_ascii_lowercase()
}

/// The bytes as text, or where they are none.
fn text_of(bytes: &[u8]) -> Result<&str, Mistake> {
    let bytes = bytes.strip_prefix(b"\xEF\xBB\xBF").unwrap_or(bytes);
    if bytes.starts_with(b"\xFF\xFE") || bytes.starts_with(b"\xFE\xFF") {
        let what = "no plain text, but UTF-16: save it as UTF-8".to_string();
        return Err(Mistake { line: None, what });
    }
    let text = std::str::from_utf8(bytes).map_err(|error| {
        let place = error.valid_up_to();
        let what = format!("the byte {:02X}h is no text", bytes[place]);
        Mistake { line: Some(line_at(bytes, place)), what }
    })?;
    match text.char_indices().find(|&(place, letter)| is_hidden(letter, &text[place..])) {
        None => Ok(text),
        Some((place, letter)) => {
            let what = format!("'{}', expected no hidden character", letter.escape_unicode());
            Err(Mistake { line: Some(line_at(bytes, place)), what })
        }
    }
}

/// The line in which a byte stands, from 1.
fn line_at(bytes: &[u8], place: usize) -> usize {
    1 + bytes[..place].iter().filter(|&&byte| byte == b'\n').count()
}

/// A character that nobody sees: a control character other than a tab or a line's end, or one that turns
/// the direction of writing or takes no room. A person has to see what is filled in.
fn is_hidden(letter: char, from_there: &str) -> bool {
    match letter {
        '\n' | '\t' => false,
        '\r' => !from_there.starts_with("\r\n"),
        '\u{AD}' | '\u{61C}' | '\u{FEFF}' => true,
        '\u{200B}'..='\u{200F}' | '\u{2028}'..='\u{202E}' | '\u{2060}'..='\u{206F}' => true,
        _ => letter.is_control(),
    }
}
