//! The working of a translation: the entries that were read, and what was made of each. It crosses as 26
//! numbers, which docs/LAYOUT.md explains.

use super::Line;
use std::fmt::{self, Display, Formatter};

/// How many numbers `show_translate` writes: a count, then five for each of at most five rows.
pub const SHOWN_NUMBERS: usize = 26;

/// The numbers of a row.
const ROW_NUMBERS: usize = 5;

/// What a translation makes of an entry that it reads, by the number that stands for it.
#[derive(Clone, Copy, Debug, PartialEq, Eq, Hash)]
pub enum Verdict {
    /// PRESENT is clear: nothing is mapped there, 14.
    Absent = 0,
    /// It names a table outside the lent frames, 19.
    Outside = 1,
    /// It names a lent table, whose entry is read next.
    Followed = 2,
    /// HUGE on the last level but one: the address lies in this page, which may lie off the board.
    LargePage = 3,
    /// Present on the last level: the address lies in this page, which may lie off the board.
    Last = 4,
}

impl Verdict {
    /// All five, by their numbers.
    pub const ALL: [Verdict; 5] =
        [Verdict::Absent, Verdict::Outside, Verdict::Followed, Verdict::LargePage, Verdict::Last];

    /// The verdict that a number stands for.
    ///
    /// ```
    /// # use gadulnos::raw::*;
    /// assert_eq!((Verdict::of(4), Verdict::of(5)), (Some(Verdict::Last), None));
    /// ```
    pub fn of(number: u64) -> Option<Verdict> {
        Verdict::ALL.into_iter().find(|verdict| *verdict as u64 == number)
    }
}

impl Display for Verdict {
    fn fmt(&self, f: &mut Formatter) -> fmt::Result {
        f.write_str(match self {
            Verdict::Absent => "absent",
            Verdict::Outside => "outside",
            Verdict::Followed => "followed",
            Verdict::LargePage => "large page",
            Verdict::Last => "last",
        })
    }
}

/// An entry that a translation read.
#[derive(Clone, Copy, Debug, PartialEq, Eq)]
pub struct Row {
    /// The level of its table, counted from the bottom: 1 is the last.
    pub level: u64,
    /// The number of the frame that is its table.
    pub frame: u64,
    /// Its index in the table, below 512.
    pub index: u64,
    /// The word that stands there.
    pub word: u64,
    /// What the translation made of it.
    pub verdict: Verdict,
}

impl Row {
    fn unpack(numbers: &[u64]) -> Option<Row> {
        match *numbers {
            [level, frame, index, word, verdict] => {
                Some(Row { level, frame, index, word, verdict: Verdict::of(verdict)? })
            }
            _ => None,
        }
    }
}

/// As in `level 4: table frame 0x10, entry 511 = 0x11007: followed`. The table is told by its frame's number, as
/// the words tell it.
impl Display for Row {
    fn fmt(&self, f: &mut Formatter) -> fmt::Result {
        let Row { level, frame, index, word, verdict } = self;
        write!(f, "level {level}: table frame {frame:#x}, entry {index} = {word:#x}: {verdict}")
    }
}

/// A translation with its working.
#[derive(Clone, Debug, PartialEq, Eq)]
pub struct Shown {
    /// What `translate` answers: what the last row says, with the address's low bits.
    pub answer: Line,
    /// The entries read, in the order read: one at least and one for each level at most; none with 10.
    pub rows: Vec<Row>,
}

impl Shown {
    /// The working that an answer and the numbers beside it stand for; nothing for numbers that stand for
    /// none.
    ///
    /// ```
    /// # use gadulnos::raw::*;
    /// let none = Shown::unpack(Line::refused(10), &[0; SHOWN_NUMBERS]);
    /// assert_eq!(none.map(|shown| shown.rows.len()), Some(0));
    /// ```
    pub fn unpack(answer: Line, numbers: &[u64; SHOWN_NUMBERS]) -> Option<Shown> {
        let count = usize::try_from(numbers[0]).ok()?;
        let rows = numbers[1..].get(..count.checked_mul(ROW_NUMBERS)?)?;
        let past = &numbers[1 + rows.len()..];
        let rows: Option<Vec<Row>> = rows.chunks(ROW_NUMBERS).map(Row::unpack).collect();
        past.iter().all(|number| *number == 0).then_some(Shown { answer, rows: rows? })
    }
}

/// A line for each row, then one for the answer.
impl Display for Shown {
    fn fmt(&self, f: &mut Formatter) -> fmt::Result {
        for row in &self.rows {
            writeln!(f, "{row}")?;
        }
        match self.answer {
            Line { number: 0, value } => write!(f, "met: address {value:#x}"),
            Line { number, .. } => write!(f, "refused: {number}"),
        }
    }
}
