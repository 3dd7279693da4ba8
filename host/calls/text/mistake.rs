//! Mistakes in a text, and how they are worded.

use super::near::nearest;
use std::borrow::Borrow;
use std::error::Error;
use std::fmt::{self, Display, Formatter};

/// The most characters that are shown of what was found.
const SHOWN: usize = 40;

/// A mistake in a text: where it stands, what was found and what would do.
#[derive(Clone, Debug, PartialEq, Eq)]
pub struct Mistake {
    /// The line, from 1.
    pub line: usize,
    /// The character of the line, from 1.
    pub column: usize,
    /// What was found, in words; what the text itself holds stands between backquotes.
    pub found: String,
    /// What would do, in words.
    pub wanted: String,
}

impl Display for Mistake {
    fn fmt(&self, f: &mut Formatter) -> fmt::Result {
        let Mistake { line, column, found, wanted } = self;
        write!(f, "{line}:{column}: found {found}, wanted {wanted}")
    }
}

impl Error for Mistake {}

/// A piece of a text between backquotes, cut if it is long. What would not show, or would move the cursor, is escaped.
pub fn quoted(text: &str) -> String {
    let mut shown = String::from("`");
    for (at, letter) in text.chars().enumerate() {
        if at == SHOWN {
            shown.push_str("...");
            break;
        }
        match letter {
            '\'' | '"' | '\\' => shown.push(letter),
            _ => shown.extend(letter.escape_debug()),
        }
    }
    shown.push('`');
    shown
}

/// A list in words: `a`, `a or b`, `a, b or c`.
pub fn either<T: Borrow<str>>(names: &[T]) -> String {
    match names {
        [first @ .., last] if !first.is_empty() => {
            format!("{} or {}", first.join(", "), last.borrow())
        }
        _ => names.concat(),
    }
}

/// The name that a wrong word may have meant, as a question to put behind what was wanted.
pub fn did_you_mean<'a>(word: &str, names: impl Iterator<Item = &'a str>) -> Option<String> {
    nearest(word, names).map(|name| format!("; did you mean `{name}`?"))
}
