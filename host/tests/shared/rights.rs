//! What decides the user question, told from the entries that a translation reads: cases to count answers
//! under, so that a run shows whether it would have found out a wrong rule.

#![allow(dead_code)] // no program uses all of it

use crate::report::holds;
use std::collections::BTreeMap;
use std::fmt::{self, Display, Formatter};

const PRESENT: u64 = 1;
const WRITABLE: u64 = 2;
const USER: u64 = 4;
const HUGE: u64 = 128;

/// What decides. Levels count from the bottom, 1 the last.
#[derive(Clone, Copy, Debug, PartialEq, Eq, PartialOrd, Ord)]
pub enum Case {
    /// A page, with USER and WRITABLE in every entry: user code may read and write.
    Yes,
    /// A page, with USER clear on this level alone: neither, whatever WRITABLE is.
    User(u64),
    /// A page, with USER in every entry and WRITABLE clear on this level alone: it may read.
    Writable(u64),
    /// USER and WRITABLE in every entry, of which the last is a large page's, an absent one, or names a table
    /// outside the lent frames: neither.
    LargePage,
    Absent,
    Outside,
    /// More than one of these.
    Several,
}

/// How often each case came, by the levels of the walk.
pub type Cases = BTreeMap<(u64, Case), u64>;

impl Case {
    /// The case of the words that a translation reads on so many levels, the root's first.
    pub fn of(levels: u64, entries: &[u64]) -> Case {
        let without = |bit: u64| -> Vec<u64> {
            let on_levels = (1..=levels).rev().zip(entries);
            on_levels.filter(|(_, word)| *word & bit == 0).map(|(level, _)| level).collect()
        };
        let last = entries.last().copied().unwrap_or(0);
        let level = levels + 1 - entries.len() as u64;
        let end = match level {
            _ if last & PRESENT == 0 => Case::Absent,
            1 => Case::Yes,
            2 if last & HUGE != 0 => Case::LargePage,
            _ => Case::Outside,
        };
        match (&without(USER)[..], &without(WRITABLE)[..]) {
            ([], []) => end,
            ([], [level]) if end == Case::Yes => Case::Writable(*level),
            ([level], _) if end == Case::Yes => Case::User(*level),
            _ => Case::Several,
        }
    }

    /// Each case by itself.
    pub fn each(levels: u64) -> Vec<Case> {
        let on_levels = (1..=levels).flat_map(|level| [Case::User(level), Case::Writable(level)]);
        [Case::Yes, Case::LargePage, Case::Absent, Case::Outside]
            .into_iter()
            .chain(on_levels)
            .collect()
    }
}

impl Display for Case {
    fn fmt(&self, f: &mut Formatter) -> fmt::Result {
        match self {
            Case::Yes => f.write_str("yes"),
            Case::User(level) => write!(f, "USER clear alone on level {level}"),
            Case::Writable(level) => write!(f, "WRITABLE clear alone on level {level}"),
            Case::LargePage => f.write_str("a large page alone on level 2"),
            Case::Absent => f.write_str("an absent entry alone"),
            Case::Outside => f.write_str("a table outside alone"),
            Case::Several => f.write_str("several"),
        }
    }
}

/// That each case came so often on each of these numbers of levels.
pub fn often(cases: &Cases, levels: &[u64], least: u64) -> Result<(), String> {
    for &levels in levels {
        for case in Case::each(levels) {
            let times = cases.get(&(levels, case)).copied().unwrap_or(0);
            let wanted = format!("{case}, of {levels} levels, {least} times, not {times}");
            holds(times >= least, &wanted)?;
        }
    }
    Ok(())
}
