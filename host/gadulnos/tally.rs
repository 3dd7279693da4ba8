//! What giving frames back found.

use crate::raw::{Found, TallyNumbers};
use std::fmt::{self, Display, Formatter};

/// Of how many frames it was found that they were freed, were free already, and are not on this board: one frame for
/// each page that a call unmapped.
///
/// ```
/// use gadulnos::Tally;
///
/// let tally = Tally { freed: 2, not_here: 1, ..Tally::default() };
/// assert_eq!(tally.to_string(), "2 freed, 0 already free, 1 not on this board");
/// ```
#[derive(Clone, Copy, Debug, Default, PartialEq, Eq, Hash)]
pub struct Tally {
    /// Frames that were marked and are free now.
    pub freed: u64,
    /// Frames of the board that were free already.
    pub already_free: u64,
    /// Frames that are not on this board.
    pub not_here: u64,
}

impl Tally {
    /// How many pages were unmapped.
    ///
    /// ```
    /// # use gadulnos::Tally;
    /// assert_eq!(Tally { freed: 2, already_free: 1, not_here: 4 }.pages(), 7);
    /// ```
    pub const fn pages(&self) -> u64 {
        self.freed + self.already_free + self.not_here
    }
}

/// From the three numbers, in the order of [`Finding`](crate::Finding).
impl From<TallyNumbers> for Tally {
    fn from([freed, already_free, not_here]: TallyNumbers) -> Tally {
        Tally { freed, already_free, not_here }
    }
}

impl From<Found> for Tally {
    fn from(found: Found) -> Tally {
        let Found { freed, already_free, not_here, .. } = found;
        Tally { freed, already_free, not_here }
    }
}

/// As in `1 freed, 0 already free, 0 not on this board`.
impl Display for Tally {
    fn fmt(&self, f: &mut Formatter) -> fmt::Result {
        let Tally { freed, already_free, not_here } = self;
        write!(f, "{freed} freed, {already_free} already free, {not_here} not on this board")
    }
}
