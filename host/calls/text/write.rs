//! Lines of a text, written by the table.

use super::paper::{Paper, Setting};
use super::table::{Field, Noun, Row, BOARD, BYTES, ROWS, UNUSED};
use crate::tape::hex;
use crate::Call;

/// The bytes of a rest on a line.
const BYTES_A_LINE: usize = 16;

/// A call. (One of a kind without a row would be written as `Display` does.)
pub fn call(call: &Call) -> String {
    let fields = call.fields();
    let is_named = |row: &&Row| {
        let mut pairs = row.fields.iter().zip(&fields);
        pairs.all(|(field, value)| !matches!(field, Field::Named(named) if named != value))
    };
    let row = ROWS.iter().filter(|row| row.kind == call.kind()).find(is_named);
    let values: Vec<Option<u64>> = fields.iter().copied().map(Some).collect();
    row.map_or_else(|| call.to_string(), |row| line(row, &values))
}

/// The lines of a paper.
pub fn paper(paper: &Paper) -> String {
    let mut text = String::new();
    let Setting { frames, from, levels } = paper.board;
    if paper.board != Setting::default() {
        text += &line(&BOARD, &[frames, from, levels]);
        text.push('\n');
    }
    for each in &paper.calls {
        text += &call(each);
        text.push('\n');
    }
    for bytes in paper.rest.chunks(BYTES_A_LINE) {
        text += BYTES.0;
        text.extend(bytes.iter().map(|byte| format!(" {}", hex(&[*byte]))));
        text.push('\n');
    }
    text
}

/// A line by its row.
fn line(row: &Row, values: &[Option<u64>]) -> String {
    let (mut arguments, mut options) = (row.name.to_string(), String::new());
    let (mut wished, mut unused) = (true, String::new());
    for (field, value) in row.fields.iter().zip(values) {
        let value = match value {
            Some(value) => *value,
            None => continue,
        };
        match field {
            Field::Named(_) => {}
            Field::Wish => wished = value != 0,
            Field::Wished(noun) if wished => arguments += &format!(" {}", noun.write(value)),
            Field::Wished(_) if value == 0 => {}
            Field::Wished(noun) => unused = format!(" {UNUSED}={}", noun.write(value)),
            Field::Number(noun) => arguments += &format!(" {}", noun.write(value)),
            Field::OneOf(names) => {
                let named = names.iter().filter(|(_, of)| *of == value);
                arguments.extend(named.map(|(name, _)| format!(" {name}")));
            }
            Field::Keyed(key, noun) => options += &format!(" {key}={}", noun.write(value)),
            Field::Options(bits) => options += &bits.write(value),
        }
    }
    arguments + &options + &unused
}

impl Noun {
    fn write(&self, value: u64) -> String {
        match value < self.decimal_below {
            true => value.to_string(),
            false => format!("{value:#x}"),
        }
    }
}

/// The syntax of a row: what may be left out stands in brackets.
pub fn syntax(row: &Row) -> String {
    let (mut arguments, mut options) = (row.name.to_string(), String::new());
    let mut unused = String::new();
    for field in row.fields {
        match field {
            Field::Named(_) | Field::Wish => {}
            Field::Number(noun) => arguments += &format!(" {}", noun.place),
            Field::Wished(noun) => {
                arguments += &format!(" [{}]", noun.place);
                unused = format!(" [{UNUSED}={}]", noun.place);
            }
            Field::OneOf(names) => {
                let names: Vec<&str> = names.iter().map(|(name, _)| *name).collect();
                arguments += &format!(" {}", names.join("|"));
            }
            Field::Keyed(key, noun) => options += &format!(" [{key}={}]", noun.place),
            Field::Options(bits) => options += &bits.syntax(),
        }
    }
    arguments + &options + &unused
}
