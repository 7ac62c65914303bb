//! Rust files as words: what is left of a text without comments, strings and characters, each word with its line.

/// A name, a sign, or the two colons between the names of a path.
#[derive(Clone, Copy, Debug, PartialEq, Eq)]
pub struct Word<'a> {
    pub text: &'a str,
    /// Counted from 1.
    pub line: usize,
}

/// The words of a text that [`bare`] gave.
pub fn words(bare: &str) -> Vec<Word<'_>> {
    let mut found = Vec::new();
    let mut line = 1;
    let mut rest = bare;
    while let Some(first) = rest.chars().next() {
        let length = match first {
            _ if is_letter(first) => rest.find(|c| !is_letter(c)).unwrap_or(rest.len()),
            ':' if rest.starts_with("::") => 2,
            _ => first.len_utf8(),
        };
        if !first.is_whitespace() {
            found.push(Word { text: &rest[..length], line });
        }
        line += usize::from(first == '\n');
        rest = &rest[length..];
    }
    found
}

/// True of a letter that a name can have.
pub fn is_letter(c: char) -> bool {
    c.is_alphanumeric() || c == '_'
}

/// The text with spaces in the place of comments, strings and characters. Every line stays where it is.
pub fn bare(text: &str) -> String {
    let mut left = String::with_capacity(text.len());
    let mut rest = text;
    while let Some(first) = rest.chars().next() {
        let in_name = left.chars().next_back().is_some_and(is_letter);
        let length = apart(rest, in_name);
        if length == 0 {
            left.push(first);
            rest = &rest[first.len_utf8()..];
        } else {
            left.extend(rest[..length].chars().map(|c| if c == '\n' { c } else { ' ' }));
            rest = &rest[length..];
        }
    }
    left
}

/// The length of the comment, string or character that a text begins with, or 0. An `r` inside a name begins no string.
fn apart(rest: &str, in_name: bool) -> usize {
    let to = |end: &str, from: usize| match rest[from..].find(end) {
        Some(at) => from + at + end.len(),
        None => rest.len(),
    };
    if rest.starts_with("//") {
        return rest.find('\n').unwrap_or(rest.len());
    }
    if rest.starts_with("/*") {
        return to("*/", 2);
    }
    let raw = rest.strip_prefix("br").or(rest.strip_prefix('r')).filter(|_| !in_name);
    let signs = raw.map_or(0, |raw| raw.len() - raw.trim_start_matches('#').len());
    if let Some(raw) = raw.filter(|raw| raw[signs..].starts_with('"')) {
        return to(&format!("\"{}", "#".repeat(signs)), rest.len() - raw.len() + signs + 1);
    }
    match rest.as_bytes()[0] {
        b'"' => 1 + quoted(&rest[1..], '"'),
        b'\'' if is_character(&rest[1..]) => 1 + quoted(&rest[1..], '\''),
        _ => 0,
    }
}

/// The length up to the sign that ends a literal, with it; a backslash takes the sign after it along.
fn quoted(rest: &str, end: char) -> usize {
    let mut signs = rest.char_indices();
    while let Some((at, sign)) = signs.next() {
        match sign {
            '\\' => drop(signs.next()),
            _ if sign == end => return at + 1,
            _ => {}
        }
    }
    rest.len()
}

/// What stands after a `'` is a character and no lifetime.
fn is_character(rest: &str) -> bool {
    rest.starts_with('\\') || rest.chars().nth(1) == Some('\'')
}

#[cfg(test)]
mod tests {
    use super::{bare, words};

    fn seen(text: &str) -> Vec<String> {
        let bare = bare(text);
        words(&bare).iter().map(|word| format!("{}@{}", word.text, word.line)).collect()
    }

    #[test]
    fn what_is_no_code_is_left_out() {
        assert_eq!(seen("a // b\n/* c\n */ d"), ["a@1", "d@3"]);
        assert_eq!(seen("a \"b\n\\\"c\" d"), ["a@1", "d@2"]);
        assert_eq!(seen("r#\"b\"\"# d br\"e\\\" f"), ["d@1", "f@1"]);
        assert_eq!(seen("('\\'', 'x', '\"')"), ["(@1", ",@1", ",@1", ")@1"]);
    }

    #[test]
    fn names_signs_and_paths() {
        assert_eq!(seen("a::b_1<'c>"), ["a@1", "::@1", "b_1@1", "<@1", "'@1", "c@1", ">@1"]);
    }
}
