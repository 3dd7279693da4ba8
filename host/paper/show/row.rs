//! Rows of cells, as text and page show them, and runs of rows folded into one.

use std::borrow::Cow;
use std::fmt::{self, Display, Formatter, Write};

/// A piece of a cell.
#[derive(Clone, Debug, PartialEq, Eq, Hash)]
pub enum Piece {
    /// Words, the same in each row of a run.
    Words(Cow<'static, str>),
    /// A number, which rises by `stride` from row to row of a run.
    Number { value: u64, stride: u64, radix: Radix },
}

/// How a number is written.
#[derive(Clone, Copy, Debug, PartialEq, Eq, Hash)]
pub enum Radix {
    /// After 0x.
    Hex,
    /// In decimal.
    Decimal,
}

impl Piece {
    /// Whether it stands so many rows behind another in a run.
    fn follows(&self, first: &Piece, behind: u64) -> bool {
        match (self, first) {
            (
                Piece::Number { value, stride, radix },
                Piece::Number { value: from, stride: by, radix: how },
            ) => {
                let step = by.wrapping_mul(behind);
                (stride, radix) == (by, how) && *value == from.wrapping_add(step)
            }
            _ => self == first,
        }
    }
}

/// As it stands in a row by itself.
impl Display for Piece {
    fn fmt(&self, f: &mut Formatter) -> fmt::Result {
        match self {
            Piece::Words(words) => f.write_str(words),
            Piece::Number { value, radix: Radix::Hex, .. } => write!(f, "{value:#x}"),
            Piece::Number { value, radix: Radix::Decimal, .. } => write!(f, "{value}"),
        }
    }
}

/// A cell.
#[derive(Clone, Debug, Default, PartialEq, Eq, Hash)]
pub struct Cell(Vec<Piece>);

impl Cell {
    /// Words.
    pub fn of(words: impl Into<Cow<'static, str>>) -> Cell {
        Cell::default().words(words)
    }

    /// .. with words behind.
    pub fn words(mut self, words: impl Into<Cow<'static, str>>) -> Cell {
        self.0.push(Piece::Words(words.into()));
        self
    }

    /// .. with a number in hexadecimal behind.
    pub fn hex(self, value: impl Into<u64>, stride: u64) -> Cell {
        self.number(value.into(), stride, Radix::Hex)
    }

    /// .. with a number in decimal behind.
    pub fn decimal(self, value: u64, stride: u64) -> Cell {
        self.number(value, stride, Radix::Decimal)
    }

    fn number(mut self, value: u64, stride: u64, radix: Radix) -> Cell {
        self.0.push(Piece::Number { value, stride, radix });
        self
    }

    /// .. with another cell behind.
    pub fn then(mut self, other: Cell) -> Cell {
        self.0.extend(other.0);
        self
    }

    /// Its pieces.
    pub fn pieces(&self) -> &[Piece] {
        &self.0
    }

    fn follows(&self, first: &Cell, behind: u64) -> bool {
        let pieces = self.0.iter().zip(&first.0);
        self.0.len() == first.0.len() && { pieces }
            .all(|(piece, first)| piece.follows(first, behind))
    }

    /// As it stands for a run of so many rows that it is the first of: `0x10a to 0x10f`.
    pub fn run(&self, count: u64) -> String {
        let mut text = String::new();
        for piece in &self.0 {
            // Writing to a string cannot fail.
            let _ = write!(text, "{piece}");
            if let Piece::Number { value, stride, radix } = *piece {
                if stride > 0 && count > 1 {
                    let value = value.wrapping_add(stride.wrapping_mul(count - 1));
                    let _ = write!(text, " to {}", Piece::Number { value, stride, radix });
                }
            }
        }
        text
    }
}

/// As it stands in a row by itself.
impl Display for Cell {
    fn fmt(&self, f: &mut Formatter) -> fmt::Result {
        self.0.iter().try_for_each(|piece| write!(f, "{piece}"))
    }
}

/// A row.
#[derive(Clone, Debug, PartialEq, Eq)]
pub struct Row(pub Vec<Cell>);

impl Row {
    /// Whether it stands so many rows behind another in a run.
    pub fn follows(&self, first: &Row, behind: u64) -> bool {
        let cells = self.0.iter().zip(&first.0);
        self.0.len() == first.0.len() && { cells }.all(|(cell, first)| cell.follows(first, behind))
    }
}

/// Items cut into runs: an item belongs to the run before it if `follows` says so of it, the run's first item and how
/// many stand between. A run shorter than `least` is cut into single items.
pub fn runs<T>(items: &[T], least: usize, follows: impl Fn(&T, &T, u64) -> bool) -> Vec<&[T]> {
    let mut runs = Vec::new();
    let mut rest = items;
    while let Some((first, behind)) = rest.split_first() {
        let more = behind.iter().zip(1..).take_while(|(item, at)| follows(item, first, *at));
        let (run, next) = rest.split_at(1 + more.count());
        match run.len() < least {
            true => runs.extend(run.chunks(1)),
            false => runs.push(run),
        }
        rest = next;
    }
    runs
}
