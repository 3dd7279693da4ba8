//! A line of a text, cut into words.

use super::mistake::{quoted, Mistake};

/// The most characters of a line.
const LONGEST: usize = 4096;

/// A word of a line, or a part of one, and where it stands.
#[derive(Clone, Copy)]
pub struct Word<'a> {
    pub line: usize,
    pub column: usize,
    pub text: &'a str,
}

impl<'a> Word<'a> {
    /// That something else would do in its place.
    pub fn mistake(&self, wanted: impl Into<String>) -> Mistake {
        let found = if self.text.is_empty() { "nothing".to_string() } else { quoted(self.text) };
        Mistake { line: self.line, column: self.column, found, wanted: wanted.into() }
    }

    /// Whether it is a name, in letters of either size.
    pub fn is(&self, name: &str) -> bool {
        self.text.eq_ignore_ascii_case(name)
    }

    /// Whether it is meant as a number.
    pub fn is_numeric(&self) -> bool {
        self.text.starts_with(|first: char| first.is_ascii_digit() || "+-".contains(first))
    }

    /// The word up to its `=`, or all of it if there is none: the name of an option.
    pub fn key(&self) -> &'a str {
        self.text.split_inclusive('=').next().unwrap_or_default()
    }

    /// What stands behind `key=`, if the word begins so.
    pub fn value(&self, key: &str) -> Option<Word<'a>> {
        let (before, text) = self.text.split_once('=')?;
        let column = self.column + before.len() + 1;
        before.eq_ignore_ascii_case(key).then_some(Word { column, text, ..*self })
    }

    /// The pieces between characters that separate them.
    pub fn pieces(self, separators: &'a [char]) -> impl Iterator<Item = Word<'a>> {
        let mut column = self.column;
        self.text.split(separators).map(move |text| {
            let piece = Word { column, text, ..self };
            column += text.chars().count() + 1;
            piece
        })
    }
}

/// A line: its words, without the comment.
pub struct Line<'a> {
    pub words: Vec<Word<'a>>,
    number: usize,
    /// The column behind the last word.
    end: usize,
}

impl<'a> Line<'a> {
    /// Cuts a line, if it is text.
    pub fn read(number: usize, bytes: &'a [u8]) -> Result<Line<'a>, Mistake> {
        let text = checked(number, bytes)?;
        let (text, _) = text.split_once('#').unwrap_or((text, ""));
        let place = Word { line: number, column: 1, text };
        let words: Vec<Word> =
            place.pieces(&[' ', '\t']).filter(|word| !word.text.is_empty()).collect();
        let end = words.last().map_or(1, |last| last.column + last.text.chars().count());
        Ok(Line { words, number, end })
    }

    /// That something is missing behind the last word.
    pub fn missing(&self, wanted: impl Into<String>) -> Mistake {
        let found = "the end of the line".to_string();
        Mistake { line: self.number, column: self.end, found, wanted: wanted.into() }
    }
}

/// The line as text: UTF-8, with no other control character than the tab, and not too long.
fn checked(line: usize, bytes: &[u8]) -> Result<&str, Mistake> {
    let mistake = |column: usize, found: String, wanted: &str| {
        Err(Mistake { line, column, found, wanted: wanted.to_string() })
    };
    let text = match std::str::from_utf8(bytes) {
        Ok(text) => text,
        Err(why) => {
            let (text, rest) = bytes.split_at(why.valid_up_to());
            let column = String::from_utf8_lossy(text).chars().count() + 1;
            let found = format!("the byte 0x{:02x}", rest.first().unwrap_or(&0));
            return mistake(column, found, "text in UTF-8");
        }
    };
    let is_control = |letter: char| letter.is_control() && letter != '\t';
    if let Some((at, letter)) = text.chars().enumerate().find(|(_, letter)| is_control(*letter)) {
        let found = format!("the control character U+{:04X}", u32::from(letter));
        return mistake(at + 1, found, "text without control characters");
    }
    match text.chars().count() {
        length if length > LONGEST => {
            let found = format!("a line of {length} characters");
            mistake(LONGEST + 1, found, &format!("lines of at most {LONGEST}"))
        }
        _ => Ok(text),
    }
}
