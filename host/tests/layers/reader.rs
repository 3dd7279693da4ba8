//! A reader of workings: it reads the words of each row again, and says what answer the last row gives. The user
//! question it answers from the words alone. Of the model and of the port it knows nothing.

use crate::port::Working;
use crate::report::{equal, equal_at, holds};
use gadulnos::raw::{Frames, Line};

const PRESENT: u64 = 1;
const WRITABLE: u64 = 2;
const USER: u64 = 4;
const HUGE: u64 = 128;
const ADDR_MASK: u64 = 0x000F_FFFF_FFFF_F000;

/// The numbers of the verdicts.
const ABSENT: u64 = 0;
const OUTSIDE: u64 = 1;
const FOLLOWED: u64 = 2;
const LARGE_PAGE: u64 = 3;
const LAST: u64 = 4;

/// The tables that are walked: words, the lent frames and the levels, and the root.
#[derive(Clone, Copy)]
pub struct Tables<'a> {
    pub words: &'a [u64],
    pub frames: Frames,
    pub root: u64,
}

/// The rows of a working, each its five numbers. What lies past them is 0.
pub fn rows(working: &Working) -> Result<Vec<[u64; 5]>, String> {
    let all: Vec<[u64; 5]> =
        working[1..].chunks(5).map(|row| row.try_into().expect("five numbers")).collect();
    holds(working[0] <= all.len() as u64, "a count of five at most")?;
    let (rows, past) = all.split_at(working[0] as usize);
    holds(past.iter().all(|row| *row == [0; 5]), "zeros past the rows")?;
    Ok(rows.to_vec())
}

impl Tables<'_> {
    fn is_lent(&self, frame: u64) -> bool {
        frame.checked_sub(self.frames.start_frame).map_or(false, |i| i < self.frames.total)
    }

    /// That each row is the entry that stands where the row before led to, the root's first, and that the
    /// last gives this answer.
    pub fn read_again(&self, virt: u64, line: Line, working: &Working) -> Result<(), String> {
        let rows = rows(working)?;
        let (last, before) = rows.split_last().ok_or("no row")?;
        let mut table = self.root;
        for (row, level) in rows.iter().zip((1..=self.frames.levels).rev()) {
            let index = virt >> (3 + 9 * level) & 511;
            equal_at("level, frame and index", &row[..3], &[level, table, index][..])?;
            holds(self.is_lent(table), "a row of a lent table")?;
            let place = (table - self.frames.start_frame) * 512 + index;
            equal_at("a row's word", row[3], self.words[place as usize])?;
            table = table_of(row);
        }
        holds(rows.len() as u64 <= self.frames.levels, "no more rows than levels")?;
        for row in before {
            equal_at("a row before the last", row[4], FOLLOWED)?;
            holds(leads_on(row) && self.is_lent(table_of(row)), "an entry that leads on")?;
        }
        equal_at("the answer of the last row", line, self.answer(virt, last)?)
    }

    /// What a last row answers, if its verdict is true of it.
    fn answer(&self, virt: u64, row: &[u64; 5]) -> Result<Line, String> {
        let [level, _, _, word, verdict] = *row;
        let page = word & ADDR_MASK;
        let is_present = word & PRESENT != 0;
        let (is_true, line) = match verdict {
            ABSENT => (!is_present, Line::refused(14)),
            OUTSIDE => (leads_on(row) && !self.is_lent(table_of(row)), Line::refused(19)),
            LARGE_PAGE => {
                (is_present && level == 2 && word & HUGE != 0, Line::met(page + virt % (1 << 21)))
            }
            LAST => (is_present && level == 1, Line::met(page + virt % (1 << 12))),
            _ => return Err(format!("a walk that ends with verdict {verdict}")),
        };
        equal_at(format!("verdict {verdict} on level {level}"), is_true, true)?;
        Ok(line)
    }
}

/// The user question, from the words.
impl Tables<'_> {
    /// The words on the way of an address, the root's first: as far as they lead.
    pub fn entries(&self, virt: u64) -> Vec<u64> {
        let (mut entries, mut table) = (Vec::new(), self.root);
        for level in (1..=self.frames.levels).rev() {
            if !self.is_lent(table) {
                break;
            }
            let index = virt >> (3 + 9 * level) & 511;
            let word = self.words[((table - self.frames.start_frame) * 512 + index) as usize];
            entries.push(word);
            let row = [level, table, index, word, 0];
            if !leads_on(&row) {
                break;
            }
            table = table_of(&row);
        }
        entries
    }

    /// Whether user code may read an address, and write it: one entry on each level, the last present, all with
    /// USER, and for a write all with WRITABLE.
    pub fn user_may(&self, virt: u64) -> [Line; 2] {
        let entries = self.entries(virt);
        let is_present = entries.last().map_or(false, |word| word & PRESENT != 0);
        let is_page = entries.len() as u64 == self.frames.levels && is_present;
        let in_all = |bit: u64| entries.iter().all(|word| word & bit != 0);
        let read = is_page && in_all(USER);
        [read, read && in_all(WRITABLE)].map(|may| Line::met(may.into()))
    }
}

/// Whether an entry names a table.
fn leads_on(row: &[u64; 5]) -> bool {
    let [level, _, _, word, _] = *row;
    word & PRESENT != 0 && (level > 2 || level == 2 && word & HUGE == 0)
}

/// The frame that an entry names.
fn table_of(row: &[u64; 5]) -> u64 {
    (row[3] & ADDR_MASK) >> 12
}

/// That a call answered 10 and wrote zeros alone.
pub fn is_broken(line: Line, working: &Working) -> Result<(), String> {
    equal(line, Line::refused(10))?;
    equal(working, &[0; gadulnos::raw::SHOWN_NUMBERS])
}
