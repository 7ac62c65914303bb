//! What a capture's file is, by its first bytes.

use std::fmt;

/// How a capture is written.
#[derive(Clone, Copy, Debug, PartialEq, Eq)]
pub enum Form {
    /// One byte a sample.
    Raw,
    Vcd,
    Csv,
    /// A session of sigrok, which is a zip file.
    Session,
    Gzip,
    Utf16,
}

impl fmt::Display for Form {
    fn fmt(&self, f: &mut fmt::Formatter) -> fmt::Result {
        f.write_str(match self {
            Form::Raw => "one byte a sample",
            Form::Vcd => "VCD",
            Form::Csv => "CSV",
            Form::Session => "a sigrok session",
            Form::Gzip => "a compressed file",
            Form::Utf16 => "text in UTF-16",
        })
    }
}

/// Within so many bytes a first line of text ends.
const MOST_FIRST: usize = 1 << 16;

/// How VCD begins.
pub const VCD: [&str; 6] = ["$date", "$version", "$timescale", "$comment", "$scope", "$var"];

/// What begins so, or `None` if more of it has to come first. `ended` says that no more comes. What is
/// nothing else is raw: samples may be any bytes.
pub fn form_of(start: &[u8], ended: bool) -> Option<Form> {
    let begins = |with: &[u8]| start.starts_with(with);
    // As long as it might still become one of these.
    let may = |with: &[u8]| !ended && start.len() < with.len() && with.starts_with(start);
    let known: [(&[u8], Form); 4] = [
        (b"PK\x03\x04", Form::Session),
        (b"\x1F\x8B\x08", Form::Gzip),
        (b"\xFF\xFE", Form::Utf16),
        (b"\xFE\xFF", Form::Utf16),
    ];
    if known.iter().any(|(with, _)| may(with)) || may(b"\xEF\xBB\xBF") {
        return None;
    }
    match known.iter().find(|(with, _)| begins(with)) {
        // A bus whose lines are all high and whose bit 0 then falls begins like text in UTF-16, which has
        // a zero in every other byte.
        Some((_, Form::Utf16)) if start.len() >= 4 && !start[2..4].contains(&0) => {}
        Some((_, Form::Utf16)) if start.len() < 4 && !ended => return None,
        Some((_, form)) => return Some(*form),
        None => {}
    }
    text_form(start, ended)
}

/// The same of what may be text.
fn text_form(start: &[u8], ended: bool) -> Option<Form> {
    let text = start.strip_prefix(b"\xEF\xBB\xBF").unwrap_or(start).trim_ascii_start();
    let is_text = |bytes: &[u8]| {
        bytes.iter().all(|byte| matches!(byte, b'\t' | b'\r' | b' '..=b'~' | 0x80..))
    };
    let is_vcd = VCD.iter().any(|word| text.starts_with(word.as_bytes()));
    // A line with such a sign before it may stand above a header, and above other texts too.
    let mut text = text;
    while let (Some(b'#'), Some(end)) = (text.first(), text.iter().position(|&byte| byte == b'\n'))
    {
        text = text[end + 1..].trim_ascii_start();
    }
    let end = text.iter().position(|&byte| byte == b'\n');
    match end.map(|end| &text[..end]) {
        _ if is_vcd => Some(Form::Vcd),
        Some(first) if is_text(first) && is_header(first) => Some(Form::Csv),
        None if is_text(text) && !ended && start.len() < MOST_FIRST => None,
        _ => Some(Form::Raw),
    }
}

/// A comment of sigrok's, or names with separators between them. Raw samples whose upper bits stand still have no
/// line feed after letters and commas alone.
fn is_header(line: &[u8]) -> bool {
    let separated = line.iter().filter(|byte| b",;\t".contains(byte)).count() >= 2;
    let comment = line.starts_with(b"; ");
    let named = line.iter().any(u8::is_ascii_alphanumeric);
    (comment || separated) && named && std::str::from_utf8(line).is_ok()
}
