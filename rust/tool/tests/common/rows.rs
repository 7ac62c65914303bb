//! JSON and CSV, read back as another program would.
#![allow(dead_code)]

use std::collections::BTreeMap;

/// A value of JSON. Of a field that is there twice the last counts, as most readers have it.
#[derive(Clone, Debug, PartialEq)]
pub enum Read {
    Null,
    Bool(bool),
    Number(f64),
    Text(String),
    List(Vec<Read>),
    Object(BTreeMap<String, Read>),
}

impl Read {
    /// A field of an object.
    pub fn at(&self, name: &str) -> &Read {
        match self {
            Read::Object(fields) => {
                fields.get(name).unwrap_or_else(|| panic!("no {name}: {self:?}"))
            }
            other => panic!("no object: {other:?}"),
        }
    }

    pub fn text(&self) -> &str {
        match self {
            Read::Text(text) => text,
            other => panic!("no text: {other:?}"),
        }
    }

    pub fn number(&self) -> u64 {
        match self {
            Read::Number(number) => *number as u64,
            other => panic!("no number: {other:?}"),
        }
    }
}

/// The value of a text that is JSON and nothing besides.
pub fn json(text: &str) -> Read {
    let mut letters = text.chars().peekable();
    let value = value(&mut letters);
    assert_eq!(letters.next(), None, "after the value: {text}");
    value
}

/// The values of a text with one a line.
pub fn json_lines(text: &str) -> Vec<Read> {
    assert!(text.is_empty() || text.ends_with('\n'));
    text.lines().map(json).collect()
}

type Letters<'a> = std::iter::Peekable<std::str::Chars<'a>>;

fn value(letters: &mut Letters) -> Read {
    match letters.peek() {
        Some('"') => Read::Text(string(letters)),
        Some('[') => {
            let mut values = vec![];
            each(letters, ']', |letters| values.push(value(letters)));
            Read::List(values)
        }
        Some('{') => {
            let mut fields = BTreeMap::new();
            each(letters, '}', |letters| {
                let name = string(letters);
                assert_eq!(letters.next(), Some(':'));
                fields.insert(name, value(letters));
            });
            Read::Object(fields)
        }
        _ => word(letters),
    }
}

/// What stands between brackets, comma by comma.
fn each(letters: &mut Letters, end: char, mut take: impl FnMut(&mut Letters)) {
    letters.next();
    if letters.next_if_eq(&end).is_some() {
        return;
    }
    loop {
        take(letters);
        match letters.next() {
            Some(',') => {}
            found => return assert_eq!(found, Some(end)),
        }
    }
}

fn word(letters: &mut Letters) -> Read {
    let mut word = String::new();
    while let Some(letter) = letters.next_if(|letter| !",]}".contains(*letter)) {
        word.push(letter);
    }
    match word.as_str() {
        "null" => Read::Null,
        "true" => Read::Bool(true),
        "false" => Read::Bool(false),
        number => Read::Number(number.parse().unwrap_or_else(|_| panic!("no value: {number}"))),
    }
}

fn string(letters: &mut Letters) -> String {
    assert_eq!(letters.next(), Some('"'));
    let mut text = String::new();
    loop {
        match letters.next().expect("the string ends") {
            '"' => return text,
            '\\' => text.push(escaped(letters)),
            letter => {
                assert!(letter >= ' ', "a control character stands in a string");
                text.push(letter);
            }
        }
    }
}

fn escaped(letters: &mut Letters) -> char {
    match letters.next() {
        Some('n') => '\n',
        Some('r') => '\r',
        Some('t') => '\t',
        Some('u') => {
            let digits: String = letters.take(4).collect();
            assert_eq!(digits.len(), 4);
            char::from_u32(u32::from_str_radix(&digits, 16).unwrap()).unwrap()
        }
        Some(letter @ ('"' | '\\')) => letter,
        other => panic!("no escape: {other:?}"),
    }
}

/// The rows of a text that is CSV, its head first.
pub fn csv(text: &str) -> Vec<Vec<String>> {
    let mut rows = vec![];
    let mut letters = text.chars().peekable();
    while letters.peek().is_some() {
        let mut row = vec![];
        loop {
            row.push(cell(&mut letters));
            match letters.next() {
                Some(',') => {}
                found => {
                    assert_eq!(found, Some('\n'));
                    break;
                }
            }
        }
        rows.push(row);
    }
    rows
}

fn cell(letters: &mut Letters) -> String {
    let mut text = String::new();
    if letters.next_if_eq(&'"').is_none() {
        while let Some(letter) = letters.next_if(|letter| !",\n".contains(*letter)) {
            assert!(letter != '"' && letter != '\r', "it wants quotes");
            text.push(letter);
        }
        return text;
    }
    loop {
        match letters.next().expect("the cell ends") {
            '"' if letters.next_if_eq(&'"').is_some() => text.push('"'),
            '"' => return text,
            letter => text.push(letter),
        }
    }
}

/// The cells of a column, by its name.
pub fn column(rows: &[Vec<String>], name: &str) -> Vec<String> {
    let place = rows[0].iter().position(|column| column == name);
    let place = place.unwrap_or_else(|| panic!("no column {name}"));
    rows[1..].iter().map(|row| row[place].clone()).collect()
}
