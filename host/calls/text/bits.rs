//! Numbers whose bits have names, as options of a line.

use super::line::Word;
use super::mistake::{either, Mistake};
use super::number;

/// A number whose bits have names.
pub struct Bits {
    /// The option that gives it, as `prot` in `prot=rw`, and what a syntax has behind it.
    pub key: &'static str,
    pub place: &'static str,
    /// Its name in a mistake.
    pub what: &'static str,
    /// Its bytes on a tape: 1, 4 or 8.
    pub width: usize,
    /// The names of its bits, in the order in which they are written. Letters are joined as they stand, longer names
    /// by `+`.
    pub names: &'static [(&'static str, u64)],
    /// The bits whose names are options by themselves.
    pub alone: u64,
    /// Its value where no option is given; none if one must be.
    pub default: Option<u64>,
}

impl Bits {
    /// The bit of a name, in letters of either size.
    fn named(&self, text: &str) -> Option<u64> {
        let names = &mut self.names.iter();
        names.find(|(name, _)| name.eq_ignore_ascii_case(text)).map(|&(_, bit)| bit)
    }

    /// The bits of a name or of letters, none of which comes twice.
    fn joined(&self, text: &str) -> Option<u64> {
        let letter = |letter: char| self.named(letter.encode_utf8(&mut [0; 4]));
        let join =
            |bits: u64, next| letter(next).filter(|bit| bits & bit == 0).map(|bit| bits | bit);
        let letters = || text.chars().try_fold(0, join).filter(|_| !text.is_empty());
        self.named(text).or_else(letters)
    }

    /// The names that are options by themselves.
    fn words(&self) -> impl Iterator<Item = &'static (&'static str, u64)> + '_ {
        self.names.iter().filter(|(_, bit)| bit & self.alone != 0)
    }

    /// Its options: the names that stand by themselves, and the key.
    pub fn options(&self) -> Vec<String> {
        let key = format!("{}=", self.key);
        self.words().map(|(name, _)| name.to_string()).chain([key]).collect()
    }

    /// What a word gives, if it is one of these options.
    pub fn option(&self, word: &Word) -> Result<Option<u64>, Mistake> {
        match word.value(self.key) {
            Some(value) => self.read(value).map(Some),
            None => Ok(self.words().find(|(name, _)| word.is(name)).map(|&(_, bit)| bit)),
        }
    }

    /// What stands behind the key: names and numbers, joined.
    fn read(&self, value: Word) -> Result<u64, Mistake> {
        let (mut sum, mut named) = (0, 0);
        for piece in value.pieces(&['+', ',']) {
            sum |= match self.joined(piece.text) {
                Some(bits) if bits & named != 0 => return Err(piece.mistake("each name once")),
                Some(bits) => {
                    named |= bits;
                    bits
                }
                None => number::read_bits(piece, self.width, self.what, || self.form())?,
            };
        }
        Ok(sum)
    }

    /// What may stand behind the key, in words.
    pub fn form(&self) -> String {
        let (letters, names): (Vec<&str>, Vec<&str>) =
            self.names.iter().map(|(name, _)| *name).partition(|name| name.len() == 1);
        match letters.is_empty() {
            true => format!("{}, joined by +, or a number", either(&names)),
            false => {
                format!("letters out of {}, {}, or a number", letters.join(""), names.join(", "))
            }
        }
    }

    /// The options that give a value: names if all its bits have one, else a number. There are none for 0 if that is
    /// the default.
    pub fn write(&self, value: u64) -> String {
        let all = self.names.iter().fold(0, |all, (_, bit)| all | bit);
        if value & !all != 0 {
            return format!(" {}={value:#x}", self.key);
        }
        let words = self.words().filter(|(_, bit)| value & bit != 0);
        let words: String = words.map(|(name, _)| format!(" {name}")).collect();
        let behind = value & !self.alone;
        if behind == 0 && self.default == Some(0) {
            return words;
        }
        let is_there = |bit: u64| if behind == 0 { bit == 0 } else { behind & bit != 0 };
        let names = self.names.iter().filter(|(_, bit)| is_there(*bit));
        let names: Vec<&str> = names.map(|(name, _)| *name).collect();
        let joint = if names.iter().all(|name| name.len() == 1) { "" } else { "+" };
        format!("{words} {}={}", self.key, names.join(joint))
    }

    /// Its options in a syntax.
    pub fn syntax(&self) -> String {
        let words: String = self.words().map(|(name, _)| format!(" [{name}]")).collect();
        match self.default {
            Some(_) => format!("{words} [{}={}]", self.key, self.place),
            None => format!("{words} {}={}", self.key, self.place),
        }
    }
}
