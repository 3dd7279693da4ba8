//! Numbers of a text: decimal or hexadecimal, by the bytes that they have on a tape.

use super::line::Word;
use super::mistake::Mistake;

/// Why a word is no number that fits.
enum Unfit {
    NoNumber,
    TooLarge,
}

/// The number that a word writes, in decimal or after `0x`, with single `_` between digits, if it is one below 2^64.
pub fn number(text: &str) -> Option<u64> {
    natural(text).ok()
}

/// A number of eight bytes. `what` is what it would be, for a mistake.
pub fn read(word: Word, what: &str) -> Result<u64, Mistake> {
    read_bits(word, 8, what, || FORM.to_string())
}

/// How a number is written, for a mistake.
pub const FORM: &str = "a number in decimal or after 0x";

/// A number of 1, 4 or 8 bytes, as its bits; one of 4 may have a sign. `form` is how the word might have been written,
/// if it is no number.
pub fn read_bits(
    word: Word,
    width: usize,
    what: &str,
    form: impl FnOnce() -> String,
) -> Result<u64, Mistake> {
    bits(word.text, width).map_err(|unfit| match unfit {
        Unfit::NoNumber => word.mistake(format!("{what}: {}", form())),
        Unfit::TooLarge => word.mistake(format!("{what}: {}", range(width))),
    })
}

/// The numbers that fit, in words.
fn range(width: usize) -> &'static str {
    match width {
        1 => "a number below 256",
        4 => "a number from -2147483648 to 4294967295",
        _ => "a number below 2^64",
    }
}

fn bits(text: &str, width: usize) -> Result<u64, Unfit> {
    let most = u64::MAX >> (64 - 8 * width.clamp(1, 8));
    let (negative, digits) = match text.strip_prefix('-') {
        Some(digits) if width == 4 => (true, digits),
        _ => (false, text),
    };
    match (negative, natural(digits)?) {
        (false, value) if value <= most => Ok(value),
        (true, value) if value <= most / 2 + 1 => Ok(value.wrapping_neg() & most),
        _ => Err(Unfit::TooLarge),
    }
}

fn natural(text: &str) -> Result<u64, Unfit> {
    let hexadecimal = text.strip_prefix("0x").or_else(|| text.strip_prefix("0X"));
    let (radix, digits) = hexadecimal.map_or((10, text), |digits| (16, digits));
    let is_number = |run: &str| !run.is_empty() && run.chars().all(|digit| digit.is_digit(radix));
    if !digits.split('_').all(is_number) {
        return Err(Unfit::NoNumber);
    }
    let mut values = digits.chars().filter_map(|digit| digit.to_digit(radix));
    let add = |sum: u64, digit| sum.checked_mul(u64::from(radix))?.checked_add(u64::from(digit));
    values.try_fold(0, add).ok_or(Unfit::TooLarge)
}
