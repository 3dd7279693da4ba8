//! Lines of a text, read by the table.

use super::line::{Line, Word};
use super::mistake::{did_you_mean, either, Mistake};
use super::number::{self, FORM};
use super::paper::Setting;
use super::table::{Field, Noun, Row, BOARD, BYTES, ROWS, UNUSED};
use crate::Call;

/// The call that a line writes.
pub fn call(line: &Line) -> Result<Call, Mistake> {
    let name = line.words.first().ok_or_else(|| line.missing("the name of a call"))?;
    let row = ROWS.iter().find(|row| name.is(row.name)).ok_or_else(|| unknown(name))?;
    let fields = Reading::of(line, row)?.fields()?;
    Call::from_fields(row.kind, &fields).ok_or_else(|| unknown(name))
}

fn unknown(name: &Word) -> Mistake {
    let names = ROWS.iter().map(|row| row.name).chain([BOARD.name, BYTES.0]);
    let near = did_you_mean(name.text, names);
    let near = near.unwrap_or_else(|| ", such as vmalloc, mmap or fault".to_string());
    name.mistake(format!("the name of a call{near}"))
}

/// The setting that a `board` line writes.
pub fn setting(line: &Line) -> Result<Setting, Mistake> {
    let reading = Reading::of(line, &BOARD)?;
    let value = |at: usize| reading.values.get(at).copied().flatten();
    let setting = Setting { frames: value(0), from: value(1), levels: value(2) };
    match setting == Setting::default() {
        true => Err(line.missing(format!("an option: {}", either(&reading.options())))),
        false => Ok(setting),
    }
}

/// The bytes that a `bytes` line writes.
pub fn bytes(line: &Line) -> Result<Vec<u8>, Mistake> {
    const WANTED: &str = "bytes: pairs of hexadecimal digits";
    let mut bytes = Vec::new();
    for word in line.words.iter().skip(1) {
        bytes.extend(pairs(word.text).ok_or_else(|| word.mistake(WANTED))?);
    }
    match bytes.is_empty() {
        true => Err(line.missing(WANTED)),
        false => Ok(bytes),
    }
}

fn pairs(text: &str) -> Option<Vec<u8>> {
    let digits: Option<Vec<u32>> = text.chars().map(|digit| digit.to_digit(16)).collect();
    let digits = digits.filter(|digits| digits.len() % 2 == 0)?;
    let byte = |pair: &[u32]| pair.iter().fold(0, |byte, digit| byte * 16 + *digit as u8);
    Some(digits.chunks(2).map(byte).collect())
}

/// A line in the midst of being read by its row.
struct Reading<'a> {
    line: &'a Line<'a>,
    row: &'static Row,
    /// What was read of each field.
    values: Vec<Option<u64>>,
}

impl<'a> Reading<'a> {
    fn of(line: &'a Line<'a>, row: &'static Row) -> Result<Reading<'a>, Mistake> {
        let mut reading = Reading { line, row, values: Vec::new() };
        let options = reading.arguments(line.words.get(1..).unwrap_or_default())?;
        for (at, word) in options.iter().enumerate() {
            if options.iter().take(at).any(|before| before.key().eq_ignore_ascii_case(word.key())) {
                return Err(word.mistake("each option once"));
            }
            reading.option(word)?;
        }
        Ok(reading)
    }

    /// Reads the words that must be there, and returns those behind them.
    fn arguments(&mut self, words: &'a [Word<'a>]) -> Result<&'a [Word<'a>], Mistake> {
        let numbers = self.row.fields.iter().filter(|field| matches!(field, Field::Number(_)));
        let given = words.iter().take_while(|word| word.is_numeric());
        let wished = given.count() > numbers.count();
        let mut words = words.iter();
        for field in self.row.fields {
            let value = match field {
                Field::Named(value) => Some(*value),
                Field::Wish => Some(u64::from(wished)),
                Field::Wished(noun) if wished => Some(self.number(words.next(), noun)?),
                Field::Number(noun) => Some(self.number(words.next(), noun)?),
                Field::OneOf(names) => Some(self.one_of(words.next(), names)?),
                Field::Wished(_) | Field::Keyed(..) | Field::Options(_) => None,
            };
            self.values.push(value);
        }
        Ok(words.as_slice())
    }

    fn number(&self, word: Option<&Word>, noun: &Noun) -> Result<u64, Mistake> {
        match word {
            Some(word) => number::read(*word, noun.what),
            None => Err(self.line.missing(format!("{}: {FORM}", noun.what))),
        }
    }

    fn one_of(&self, word: Option<&Word>, names: &[(&str, u64)]) -> Result<u64, Mistake> {
        let wanted = || either(&names.iter().map(|(name, _)| *name).collect::<Vec<&str>>());
        let word = word.ok_or_else(|| self.line.missing(wanted()))?;
        let value = names.iter().find(|(name, _)| word.is(name));
        value.map(|&(_, value)| value).ok_or_else(|| word.mistake(wanted()))
    }

    /// Reads a word behind the arguments: the bits that it gives join those of its field.
    fn option(&mut self, word: &Word) -> Result<(), Mistake> {
        for (field, value) in self.row.fields.iter().zip(&mut self.values) {
            let bits = match field {
                Field::Options(bits) => bits.option(word)?,
                Field::Keyed(key, noun) => keyed(word, key, noun)?,
                Field::Wished(noun) if value.is_none() => keyed(word, UNUSED, noun)?,
                _ => None,
            };
            if let Some(bits) = bits {
                *value = Some(value.unwrap_or(0) | bits);
                return Ok(());
            }
        }
        Err(self.no_option(word))
    }

    /// The options that the line can have, `unused=` as the last.
    fn options(&self) -> Vec<String> {
        let (mut options, mut unused) = (Vec::new(), None);
        for (field, value) in self.row.fields.iter().zip(&self.values) {
            match field {
                Field::Options(bits) => options.extend(bits.options()),
                Field::Keyed(key, _) => options.push(format!("{key}=")),
                Field::Wished(_) if value.is_none() => unused = Some(format!("{UNUSED}=")),
                _ => {}
            }
        }
        options.extend(unused);
        options
    }

    /// That a word behind the arguments is no option.
    fn no_option(&self, word: &Word) -> Mistake {
        let options = self.options();
        if options.is_empty() {
            let wanted = format!("the end of the line: nothing more belongs to {}", self.row.name);
            return word.mistake(wanted);
        }
        let near = did_you_mean(word.key(), options.iter().map(String::as_str));
        word.mistake(format!("an option: {}{}", either(&options), near.unwrap_or_default()))
    }

    /// All fields, with the defaults of those that nothing was said of.
    fn fields(&self) -> Result<Vec<u64>, Mistake> {
        let fields = self.row.fields.iter().zip(&self.values);
        let read = fields.map(|(field, value)| match (value, field) {
            (Some(value), _) => Ok(*value),
            (None, Field::Options(bits)) => bits.default.ok_or_else(|| {
                self.line.missing(format!("{}= and {}: {}", bits.key, bits.what, bits.form()))
            }),
            (None, _) => Ok(0),
        });
        read.collect()
    }
}

/// The number that a word gives, if it begins with this key.
fn keyed(word: &Word, key: &str, noun: &Noun) -> Result<Option<u64>, Mistake> {
    word.value(key).map(|value| number::read(value, noun.what)).transpose()
}
