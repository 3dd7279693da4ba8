//! What a call told: its line and, of a call that gives frames back, what was found of them (document 02, slip 5).

use super::{Found, Line};

/// How many frames were freed, were free already, and are not on the board.
pub type TallyNumbers = [u64; 3];

/// Of no frame anything was found.
pub const NONE: TallyNumbers = [0; 3];

/// What a call told.
#[derive(Clone, Copy, Debug, PartialEq, Eq)]
pub struct Told {
    /// What the key has of the call.
    pub line: Line,
    /// What was found of the frames that it gave back.
    pub tally: TallyNumbers,
}

impl Told {
    /// A met call that gives no frame back.
    ///
    /// ```
    /// # use gadulnos::raw::*;
    /// assert_eq!(Told::met(5).line, Line::met(5));
    /// ```
    pub const fn met(value: u64) -> Told {
        Told { line: Line::met(value), tally: NONE }
    }

    /// A refused call.
    ///
    /// ```
    /// # use gadulnos::raw::*;
    /// assert_eq!(Told::refused(5).line, Line::refused(5));
    /// ```
    pub const fn refused(number: u64) -> Told {
        Told { line: Line::refused(number), tally: NONE }
    }

    /// A met call that found so many frames so.
    ///
    /// ```
    /// # use gadulnos::raw::*;
    /// assert_eq!(Told::found([1, 0, 0]).line, Line::met(0));
    /// ```
    pub const fn found(tally: TallyNumbers) -> Told {
        Told { line: Line::met(0), tally }
    }

    /// How many pages were unmapped.
    ///
    /// ```
    /// # use gadulnos::raw::*;
    /// assert_eq!(Told::found([1, 2, 3]).sum(), 6);
    /// ```
    pub fn sum(&self) -> u64 {
        self.tally.iter().sum()
    }
}

impl From<Line> for Told {
    fn from(line: Line) -> Told {
        Told { line, tally: NONE }
    }
}

impl From<Found> for Told {
    fn from(found: Found) -> Told {
        Told { line: found.line(), tally: found.tally() }
    }
}
