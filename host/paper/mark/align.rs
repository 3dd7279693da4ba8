//! Which lines of a sheet stand for which of the key's: the alignment with the fewest edits.

use super::wanted::Wanted;
use crate::key::KeyLine;

/// What comes next of key and sheet.
#[derive(Clone, Copy, Debug, PartialEq, Eq)]
pub enum Step {
    /// A line of each, which stand for each other, right or wrong.
    Both,
    /// A line of the key for which nothing is written.
    Missing,
    /// A line of the sheet that belongs to none of the key's.
    Surplus,
}

/// The most pairs of lines that are compared, which bounds time and memory.
const MOST_PAIRS: usize = 4 << 20;

/// What an alignment costs: first its edits, then the lines that are not right, then those that are missing or surplus.
/// A line that cannot be read is surplus for nothing: headings cost no right line, and where one takes a call's place
/// and leaves as many lines right it is a wrong answer, since nothing is missing then.
type Cost = [u32; 3];

const WRONG: Cost = [1, 1, 0];
const MISSING: Cost = [1, 1, 1];
const SURPLUS: Cost = [1, 0, 1];
const UNREADABLE: Cost = [0, 0, 1];
const NO_WAY: Cost = [u32::MAX; 3];

/// By how many lines key and sheet may be shifted against each other.
///
/// All ways are gone where lists are short. Where they are long only those are that stay near the straight way, so that
/// [`MOST_PAIRS`] hold; there is none where the lists' lengths alone differ by too much.
pub struct Band {
    key: usize,
    written: usize,
    /// A line of the sheet stands at least as far behind its line of the key: below 0 it stands before it.
    least: isize,
    /// How many shifts there are from this one on.
    width: usize,
}

impl Band {
    /// The band of lists of so many lines.
    pub fn of(key: usize, written: usize) -> Option<Band> {
        let (rows, straight) = (key.checked_add(1)?, key.abs_diff(written).checked_add(1)?);
        let spare = (MOST_PAIRS / rows).checked_sub(straight)? / 2;
        let before = spare.saturating_add(key.saturating_sub(written)).min(key);
        let behind = spare.saturating_add(written.saturating_sub(key)).min(written);
        let least = -isize::try_from(before).ok()?;
        Some(Band { key, written, least, width: before + behind + 1 })
    }

    /// The steps of the cheapest alignment. Of several it is the one that goes straight for longest.
    pub fn steps(&self, key: &[Wanted], written: &[Option<KeyLine>]) -> Vec<Step> {
        let next = self.all(key, written);
        let mut steps = Vec::new();
        let (mut row, mut shift) = (0, self.least.unsigned_abs());
        while let Some(step) = next.get(row * self.width + shift) {
            if row == self.key && self.place(row, shift) == Some(self.written) {
                break;
            }
            steps.push(*step);
            match step {
                Step::Both => row += 1,
                Step::Missing => (row, shift) = (row + 1, shift.wrapping_sub(1)),
                Step::Surplus => shift += 1,
            }
        }
        steps
    }

    /// The line of the sheet that stands at a shift against the key's line; nothing if the sheet has none there.
    fn place(&self, row: usize, shift: usize) -> Option<usize> {
        let place = row as isize + shift as isize + self.least;
        usize::try_from(place).ok().filter(|place| *place <= self.written)
    }

    /// The best step from every pair of places on: shift by shift, for each line of the key and for its end.
    fn all(&self, key: &[Wanted], written: &[Option<KeyLine>]) -> Vec<Step> {
        let mut steps = vec![Step::Both; (self.key + 1) * self.width];
        let mut below = vec![NO_WAY; self.width];
        for row in (0..=self.key).rev() {
            let mut here = vec![NO_WAY; self.width];
            for shift in (0..self.width).rev() {
                let place = match self.place(row, shift) {
                    Some(place) => place,
                    None => continue,
                };
                let behind = here.get(shift + 1).copied();
                let lines = (key.get(row), written.get(place));
                let (cost, step) = best(lines, &below, shift, behind);
                here[shift] = cost;
                steps[row * self.width + shift] = step;
            }
            below = here;
        }
        steps
    }
}

/// The best step from a pair of places on, and what it costs up to the end. `below` has the costs of the next line of
/// the key, `behind` that of the next line of the sheet.
fn best(
    lines: (Option<&Wanted>, Option<&Option<KeyLine>>),
    below: &[Cost],
    shift: usize,
    behind: Option<Cost>,
) -> (Cost, Step) {
    let (wanted, written) = match lines {
        (None, None) => return ([0; 3], Step::Both),
        lines => lines,
    };
    let both = match (wanted, written) {
        (Some(wanted), Some(says)) => {
            let cost = if wanted.is(*says) { [0; 3] } else { WRONG };
            sum(below.get(shift).copied(), cost)
        }
        _ => NO_WAY,
    };
    let surplus = match written {
        Some(says) => sum(behind, if says.is_some() { SURPLUS } else { UNREADABLE }),
        None => NO_WAY,
    };
    let missing = match wanted {
        Some(_) => sum(shift.checked_sub(1).and_then(|at| below.get(at)).copied(), MISSING),
        None => NO_WAY,
    };
    let least = both.min(surplus).min(missing);
    match least {
        cost if cost == both => (cost, Step::Both),
        cost if cost == surplus => (cost, Step::Surplus),
        cost => (cost, Step::Missing),
    }
}

/// Two costs together.
fn sum(one: Option<Cost>, [edits, wrong, moved]: Cost) -> Cost {
    match one {
        None | Some(NO_WAY) => NO_WAY,
        Some([a, b, c]) => [a + edits, b + wrong, c + moved],
    }
}
