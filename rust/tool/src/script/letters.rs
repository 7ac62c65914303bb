//! The letters of a word: in small ones, and as they can be shown.

use std::borrow::Cow;

/// A word in small letters. Most have no others, and a long script has thousands of words.
pub fn small(word: &str) -> Cow<'_, str> {
    match word.bytes().any(|byte| byte.is_ascii_uppercase()) {
        true => word.to_ascii_lowercase().into(),
        false => word.into(),
    }
}

/// A word as it can be shown: no control characters, and not too long.
pub fn shown(word: &str) -> String {
    let most = 40;
    let text: Cow<str> = match word.chars().count() > most {
        true => format!("{}...", word.chars().take(most).collect::<String>()).into(),
        false => word.into(),
    };
    text.escape_debug().to_string()
}
