//! What stands after a box's name: a value, `without limit` or `empty`, and what to write instead of
//! anything else.

use gunwaleish::Section;

use crate::script::shown;

/// A reserve without limit. It has no other spelling, and 0 is none.
pub const WITHOUT_LIMIT: &str = "without limit";
/// A box that is not ticked.
pub const EMPTY: &str = "empty";

const A_RESERVE: &str = "a whole number of ms in decimal, 1 to 255, or without limit, or empty";
const A_PRIORITY: &str = "0 (without priority), 1 (with priority) or empty";
const AN_IDLE_TIMER: &str = "0 (off), 1 (on) or empty";
const NO_BARE_0: &str =
    "1 to 255, or in words what the 0 stands for: without limit, if the controller is to keep the bus \
     until it lets go, or empty, if nothing is ordered; a 0 that nobody meant is how the incident came \
     about";
const THE_END: &str = "the line's end";

/// The value of a box, as the text form has it.
pub fn written(section: Section, value: Option<u8>) -> String {
    match (section, value) {
        (_, None) => EMPTY.to_string(),
        (Section::Reserve, Some(0)) => WITHOUT_LIMIT.to_string(),
        (_, Some(value)) => value.to_string(),
    }
}

/// The value that stands there, `None` for an empty box; or what stands there instead, and what was
/// expected.
pub fn value_of(section: Section, text: &str) -> Result<Option<u8>, String> {
    let words: Vec<String> = text.split_whitespace().map(str::to_ascii_lowercase).collect();
    accepted(section, &words.join(" ")).ok_or_else(|| {
        let (word, expected) = advice(section, text, &words);
        match word.is_empty() {
            true => format!("nothing after the colon, expected {expected}"),
            false => format!("'{}', expected {expected}", shown(word)),
        }
    })
}

/// The one spelling of each value.
fn accepted(section: Section, words: &str) -> Option<Option<u8>> {
    match (section, words) {
        (_, EMPTY) => Some(None),
        (Section::Reserve, WITHOUT_LIMIT) => Some(Some(0)),
        (Section::Reserve, _) => decimal(words).map(Some),
        (_, "0") => Some(Some(0)),
        (_, "1") => Some(Some(1)),
        _ => None,
    }
}

/// A number of 1 to 255, without a 0 before it.
fn decimal(word: &str) -> Option<u8> {
    let digits = word.bytes().all(|byte| byte.is_ascii_digit()) && !word.starts_with('0');
    word.parse().ok().filter(|_| digits)
}

/// The words at fault, and what was expected in their place.
fn advice<'a>(section: Section, text: &'a str, words: &[String]) -> (&'a str, String) {
    let reserve = section == Section::Reserve;
    let all = words.join(" ");
    if reserve && is_zero(&all) {
        return (text, NO_BARE_0.to_string());
    }
    if let Some(number) = in_ms(&all).filter(|_| reserve) {
        return (text, format!("{number} alone: the box is in ms, and a value has no unit"));
    }
    if let Some(number) = in_hex(&all).filter(|_| reserve) {
        return (text, format!("a decimal number: {} is {number}", shown(text)));
    }
    if let Some(rest) = after_value(section, text, words) {
        return (rest, THE_END.to_string());
    }
    if let Some(number) = decimal(all.trim_start_matches('0')).filter(|_| reserve) {
        return (text, format!("{number} without a 0 before it"));
    }
    let expected = match section {
        Section::Reserve => A_RESERVE,
        Section::Priority => A_PRIORITY,
        Section::Idle => AN_IDLE_TIMER,
    };
    (text, expected.to_string())
}

/// A 0 in any spelling: 00, 0x0, 0h, 0.0, 0 ms, -0.
fn is_zero(words: &str) -> bool {
    words.contains('0') && words.chars().all(|letter| "0xhbo$+-.,ms ".contains(letter))
}

/// The number before a unit that is a millisecond.
fn in_ms(words: &str) -> Option<u8> {
    let units = ["ms", "msec", "msecs", "millisecond", "milliseconds", "tick", "ticks"];
    let number = words.trim_end_matches(|letter: char| letter.is_ascii_alphabetic());
    let (number, unit) = (number.trim_end(), words[number.len()..].trim());
    decimal(number).filter(|_| units.contains(&unit))
}

/// A number in hex: 0x32, $32 or 32h.
fn in_hex(words: &str) -> Option<u8> {
    let before = words.strip_prefix("0x").or(words.strip_prefix('$'));
    let digits = before.or(words.strip_suffix('h'))?;
    let good = digits.bytes().all(|byte| byte.is_ascii_hexdigit());
    u8::from_str_radix(digits, 16).ok().filter(|_| good)
}

/// What comes after a good value, unless it may be a unit of a reserve: without it the value would be
/// another one.
fn after_value<'a>(section: Section, text: &'a str, words: &[String]) -> Option<&'a str> {
    // No value has more than two words.
    let good = |count: &usize| {
        words.len() > *count && accepted(section, &words[..*count].join(" ")).is_some()
    };
    let count = [2, 1].into_iter().find(good)?;
    let mut rest = text;
    for _ in 0..count {
        rest = rest[rest.find(char::is_whitespace)?..].trim_start();
    }
    let unit = decimal(&words[0]).is_some() && rest.starts_with(char::is_alphabetic);
    (section != Section::Reserve || !unit).then_some(rest)
}
