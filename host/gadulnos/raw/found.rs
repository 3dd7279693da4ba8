//! What giving frames back found: the answer of `vfree`, `munmap` and `handle_page_fault`, and the values of
//! `deallocate_frame` (docs/LAYOUT.md).

use super::Line;
use std::fmt::{self, Display, Formatter};

/// What was found of a frame that is given back, by the number that stands for it: `deallocate_frame`'s value.
#[derive(Clone, Copy, Debug, PartialEq, Eq, PartialOrd, Ord)]
pub enum Finding {
    /// It was marked, and is free now.
    Freed = 0,
    /// It is on the board and was not marked; nothing changes.
    AlreadyFree = 1,
    /// It is below start_frame, or at index total or above; nothing changes.
    NotHere = 2,
}

impl Finding {
    /// All three, by their numbers.
    pub const ALL: [Finding; 3] = [Finding::Freed, Finding::AlreadyFree, Finding::NotHere];

    /// What a number stands for.
    ///
    /// ```
    /// # use gadulnos::raw::*;
    /// assert_eq!((Finding::of(2), Finding::of(3)), (Some(Finding::NotHere), None));
    /// ```
    pub fn of(number: u64) -> Option<Finding> {
        Finding::ALL.into_iter().find(|finding| *finding as u64 == number)
    }
}

impl Display for Finding {
    fn fmt(&self, f: &mut Formatter) -> fmt::Result {
        f.write_str(match self {
            Finding::Freed => "freed",
            Finding::AlreadyFree => "already free",
            Finding::NotHere => "not on this board",
        })
    }
}

/// The answer of a call that gives frames back: its number, 0 if met, and how many of the frames it found so, one
/// for each page that it unmapped. A refused call has none.
#[repr(C)]
#[derive(Clone, Copy, Debug, PartialEq, Eq)]
pub struct Found {
    /// Document 01's number, 0 if the call was met.
    pub number: u64,
    /// Frames that were marked and are free now.
    pub freed: u64,
    /// Frames of the board that were free already.
    pub already_free: u64,
    /// Frames that are not on the board.
    pub not_here: u64,
}

impl Found {
    /// A met call's.
    ///
    /// ```
    /// # use gadulnos::raw::*;
    /// assert_eq!(Found::met(2, 0, 1).freed, 2);
    /// ```
    pub const fn met(freed: u64, already_free: u64, not_here: u64) -> Found {
        Found { number: 0, freed, already_free, not_here }
    }

    /// A refused call's.
    ///
    /// ```
    /// # use gadulnos::raw::*;
    /// assert_eq!(Found::refused(16).number, 16);
    /// ```
    pub const fn refused(number: u64) -> Found {
        Found { number, freed: 0, already_free: 0, not_here: 0 }
    }

    /// The call's line in a key: it has no value.
    ///
    /// ```
    /// # use gadulnos::raw::*;
    /// assert_eq!(Found::met(2, 0, 1).line(), Line::met(0));
    /// ```
    pub const fn line(&self) -> Line {
        Line { number: self.number, value: 0 }
    }

    /// The three numbers, in the order of `Finding`.
    ///
    /// ```
    /// # use gadulnos::raw::*;
    /// assert_eq!(Found::met(2, 0, 1).tally(), [2, 0, 1]);
    /// ```
    pub const fn tally(&self) -> [u64; 3] {
        [self.freed, self.already_free, self.not_here]
    }

    /// How many pages were unmapped, the temporary page of a copy aside.
    ///
    /// ```
    /// # use gadulnos::raw::*;
    /// assert_eq!(Found::met(2, 0, 1).sum(), 3);
    /// ```
    pub const fn sum(&self) -> u64 {
        self.freed + self.already_free + self.not_here
    }
}
