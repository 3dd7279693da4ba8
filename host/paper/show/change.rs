//! What changed between two boards, row by row.

use super::row::{self, Cell, Row};
use super::section::Section;
use std::collections::HashMap;

/// A row's fate.
#[derive(Clone, Copy, Debug, PartialEq, Eq)]
pub enum Mark {
    /// It is as it was.
    Kept,
    /// It is new.
    Added,
    /// Its key was there, with other cells.
    Changed,
    /// It is no more.
    Gone,
}

/// A row and what became of it.
#[derive(Clone, Copy)]
pub struct Change<'a> {
    /// What became of it.
    pub mark: Mark,
    /// The row as it is, or was last.
    pub row: &'a Row,
    /// The row as it was, if it changed.
    pub was: Option<&'a Row>,
}

impl Change<'_> {
    /// Whether it stands so many rows behind another in a run.
    fn follows(&self, first: &Change, behind: u64) -> bool {
        let was = match (self.was, first.was) {
            (Some(was), Some(first)) => was.follows(first, behind),
            (was, first) => was.is_none() && first.is_none(),
        };
        self.mark == first.mark && was && self.row.follows(first.row, behind)
    }
}

/// All rows of a section in their order, those that are gone where they stood. A row is known again by its key; one
/// that changed its place is gone and added.
pub fn changes<'a>(old: &'a Section, new: &'a Section) -> Vec<Change<'a>> {
    let mut places = Places { section: old, by_key: None };
    let gone = |row| Change { mark: Mark::Gone, row, was: None };
    let mut changes = Vec::with_capacity(new.rows.len());
    let mut rest = &old.rows[..];
    for row in &new.rows {
        let ahead = places.ahead(rest, row).and_then(|ahead| {
            let (passed, behind) = rest.split_at(ahead);
            Some((passed, behind.split_first()?))
        });
        match ahead {
            None => changes.push(Change { mark: Mark::Added, row, was: None }),
            Some((passed, (was, behind))) => {
                changes.extend(passed.iter().map(gone));
                changes.push(match was == row {
                    true => Change { mark: Mark::Kept, row, was: None },
                    false => Change { mark: Mark::Changed, row, was: Some(was) },
                });
                rest = behind;
            }
        }
    }
    changes.extend(rest.iter().map(gone));
    changes
}

/// Where the rows of a section stand, by their keys.
struct Places<'a> {
    section: &'a Section,
    /// Made when it is first needed: where boards are alike, the next row is the one that is looked for.
    by_key: Option<HashMap<Option<&'a [Cell]>, usize>>,
}

impl<'a> Places<'a> {
    /// How far ahead in the section's last rows one with the key of a row stands.
    fn ahead(&mut self, rest: &[Row], row: &Row) -> Option<usize> {
        let keys = self.section.kind.keys;
        let rows = &self.section.rows;
        if rest.first()?.0.get(..keys) == row.0.get(..keys) {
            return Some(0);
        }
        let all = || rows.iter().zip(0..).map(|(row, at)| (row.0.get(..keys), at)).collect();
        let place = self.by_key.get_or_insert_with(all).get(&row.0.get(..keys))?;
        place.checked_sub(rows.len() - rest.len())
    }
}

/// Rows as they stand, without a board before them.
pub fn kept(rows: &[Row]) -> Vec<Change<'_>> {
    rows.iter().map(|row| Change { mark: Mark::Kept, row, was: None }).collect()
}

/// Changes cut into runs of like ones.
pub fn runs<'a, 'b>(changes: &'b [Change<'a>], least: usize) -> Vec<&'b [Change<'a>]> {
    row::runs(changes, least, Change::follows)
}
