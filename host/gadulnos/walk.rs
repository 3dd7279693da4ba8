//! The walk of an address: the entries that its translation reads.

use crate::raw::Shown;
use crate::{Entry, Frame, PhysAddr, Refusal};
use std::fmt::{self, Display, Formatter};

pub use crate::raw::Verdict;

/// An entry that a translation reads, and what it makes of it.
#[derive(Clone, Copy, Debug, PartialEq, Eq, Hash)]
pub struct Step {
    /// The level of its table, counted from the bottom: 1 is the last.
    pub level: u64,
    /// The frame that is its table.
    pub table: Frame,
    /// Its index in the table, below 512.
    pub index: u64,
    /// The entry that stands there.
    pub entry: Entry,
    /// What the translation makes of it.
    pub verdict: Verdict,
}

/// As in `level 4: table frame 0x10, entry 511 = 0x11007: followed`.
impl Display for Step {
    fn fmt(&self, f: &mut Formatter) -> fmt::Result {
        let Step { level, table, index, entry, verdict } = self;
        let word = entry.word();
        write!(f, "level {level}: table frame {table}, entry {index} = {word:#x}: {verdict}")
    }
}

/// A translation with its working.
///
/// ```
/// use gadulnos::{Board, Levels, PhysAddr, Verdict};
///
/// let mut board = Board::start(PhysAddr::new(0x10_0000), PhysAddr::new(0x11_0000), Levels::Four)?;
/// let region = board.vmalloc(1)?;
/// let walk = board.walk(region);
/// let last = walk.steps.last().expect("a step at least");
/// assert_eq!((last.level, last.verdict), (1, Verdict::Last));
/// assert_eq!(last.to_string(), "level 1: table frame 0x104, entry 0 = 0x101003: last");
/// assert_eq!(walk.answer, Ok(PhysAddr::new(0x10_1000)));
/// # Ok::<(), gadulnos::Refusal>(())
/// ```
#[derive(Clone, Debug, PartialEq, Eq, Hash)]
pub struct Walk {
    /// The entries read, in the order read, from the root down.
    pub steps: Vec<Step>,
    /// What the translation answers.
    pub answer: Result<PhysAddr, Refusal>,
}

impl From<Shown> for Walk {
    fn from(shown: Shown) -> Walk {
        let steps = shown.rows.iter().map(|row| Step {
            level: row.level,
            table: Frame::new(row.frame),
            index: row.index,
            entry: Entry::new(row.word),
            verdict: row.verdict,
        });
        let answer = Refusal::value(shown.answer).map(PhysAddr::new);
        Walk { steps: steps.collect(), answer }
    }
}

/// A line for each entry, then one for the answer.
impl Display for Walk {
    fn fmt(&self, f: &mut Formatter) -> fmt::Result {
        for step in &self.steps {
            writeln!(f, "{step}")?;
        }
        match self.answer {
            Ok(addr) => write!(f, "met: address {addr}"),
            Err(refusal) => write!(f, "refused: {refusal}"),
        }
    }
}
