//! Text in XML.

use std::fmt::{self, Display, Formatter, Write};

/// Text as it may stand in an element or an attribute. Characters that XML has no place for are shown as one that
/// stands for them.
pub fn escaped(text: &str) -> Escaped<'_> {
    Escaped(text)
}

/// Text to be escaped where it is written.
pub struct Escaped<'a>(&'a str);

impl Display for Escaped<'_> {
    fn fmt(&self, f: &mut Formatter) -> fmt::Result {
        self.0.chars().try_for_each(|character| match character {
            '&' => f.write_str("&amp;"),
            '<' => f.write_str("&lt;"),
            '>' => f.write_str("&gt;"),
            '"' => f.write_str("&quot;"),
            '\n' | '\t' => f.write_char(character),
            '\0'..='\u{1f}' | '\u{7f}'..='\u{9f}' | '\u{fffe}' | '\u{ffff}' => {
                f.write_char(char::REPLACEMENT_CHARACTER)
            }
            _ => f.write_char(character),
        })
    }
}
