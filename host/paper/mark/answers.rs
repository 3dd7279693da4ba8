//! Answer sheets: a key's lines as people write them.

use crate::key::KeyLine;
use crate::trouble::plain;
use std::borrow::Cow;

/// A line of a sheet on which something is written.
pub struct Written<'a> {
    /// Its number in the file, from 1.
    pub number: u64,
    text: Cow<'a, str>,
    /// The line of a key that it says; nothing if it cannot be read as one.
    pub says: Option<KeyLine>,
}

/// The most bytes of a line that are looked at, and the most letters that are shown.
const LONGEST: usize = 4096;
const SHOWN: usize = 60;

impl<'a> Written<'a> {
    /// A line without its comment; nothing if it is empty.
    fn read(number: u64, bytes: &'a [u8]) -> Option<Written<'a>> {
        let bytes = bytes.split(|byte| *byte == b'#').next().unwrap_or_default();
        let is_ink = |byte: &u8| !byte.is_ascii_whitespace();
        let (first, last) = (bytes.iter().position(is_ink)?, bytes.iter().rposition(is_ink)?);
        let bytes = bytes.get(first..=last).unwrap_or_default();
        let text = String::from_utf8_lossy(bytes.get(..LONGEST).unwrap_or(bytes));
        let says = if bytes.len() <= LONGEST { read(&text) } else { None };
        (!text.trim().is_empty()).then_some(Written { number, text, says })
    }

    /// Its place among a key's lines. One that cannot be read counts as a call's.
    pub fn rank(&self) -> u8 {
        self.says.map_or(0, |says| says.rank())
    }

    /// What stands there.
    pub fn text(&self) -> &str {
        &self.text
    }

    /// .. cut if it is long.
    pub fn shown(&self) -> String {
        let text = plain(self.text.trim());
        let cut: String = text.chars().take(SHOWN).collect();
        if cut.len() < text.len() {
            cut + "..."
        } else {
            cut
        }
    }
}

/// The lines of a sheet. Empty ones and comments, which stand behind `#`, are passed over.
pub fn lines(sheet: &[u8]) -> impl Iterator<Item = Written<'_>> + Clone {
    let lines = (1..).zip(split(sheet));
    lines.filter_map(|(number, bytes)| Written::read(number, bytes))
}

/// The same from the last one back, without their numbers.
pub fn from_end(sheet: &[u8]) -> impl Iterator<Item = Written<'_>> {
    split(sheet).rev().filter_map(|bytes| Written::read(0, bytes))
}

/// A sheet cut into lines.
fn split(sheet: &[u8]) -> impl DoubleEndedIterator<Item = &[u8]> + Clone {
    let sheet = sheet.strip_prefix("\u{feff}".as_bytes()).unwrap_or(sheet);
    sheet.split(|byte| *byte == b'\n')
}

/// The line of a key that a text says. A value that is left out is 0.
fn read(text: &str) -> Option<KeyLine> {
    if let Some(count) = named(text, "frames") {
        return calls::text::number(count).map(KeyLine::Frames);
    }
    if let Some(offset) = named(text, "tape") {
        return calls::text::number(offset).map(KeyLine::Tape);
    }
    let words: Vec<&str> = text.split_whitespace().take(4).collect();
    match *words.as_slice() {
        [kind, number] => call(kind, number, "0"),
        [kind, number, value] => call(kind, number, value),
        _ => None,
    }
}

/// What stands behind a name, and a colon if there is one.
fn named<'a>(text: &'a str, name: &str) -> Option<&'a str> {
    text.get(..name.len()).filter(|begin| begin.eq_ignore_ascii_case(name))?;
    let behind = text.get(name.len()..)?;
    let rest = behind.trim_start();
    match rest.strip_prefix(':') {
        Some(rest) => Some(rest.trim_start()),
        None => (rest.len() < behind.len()).then_some(rest),
    }
}

/// The line of a call.
fn call(kind: &str, number: &str, value: &str) -> Option<KeyLine> {
    let kind = u8::try_from(decimal(kind)?).ok()?;
    Some(KeyLine::Call { kind, number: decimal(number)?, value: hexadecimal(value)? })
}

fn decimal(digits: &str) -> Option<u64> {
    digits.parse().ok().filter(|_| !digits.starts_with('+'))
}

/// A value: hexadecimal digits of either size, with or without leading zeros or `0x`.
fn hexadecimal(text: &str) -> Option<u64> {
    let prefixed = text.strip_prefix("0x").or_else(|| text.strip_prefix("0X"));
    let digits = prefixed.unwrap_or(text);
    u64::from_str_radix(digits, 16).ok().filter(|_| !digits.starts_with('+'))
}
