//! A translation with its working. Levels count from the bottom, 1 the last.

use super::tables::{down, frame_of, index, Tables, ADDR_MASK, HUGE, PRESENT};
use super::{line, Answer, BROKEN};
use gadulnos::raw::{Line, Verdict, SHOWN_NUMBERS};

impl Tables {
    /// What a translation makes of an entry.
    #[inline]
    fn verdict(&self, level: u64, entry: u64) -> Verdict {
        match level {
            _ if entry & PRESENT == 0 => Verdict::Absent,
            1 => Verdict::Last,
            2 if entry & HUGE != 0 => Verdict::LargePage,
            _ if self.place(frame_of(entry)).is_some() => Verdict::Followed,
            _ => Verdict::Outside,
        }
    }

    /// Translates, and writes a row for each entry that it reads.
    #[inline]
    fn show(&self, words: &[u64], virt: u64, out: &mut [u64; SHOWN_NUMBERS]) -> Answer {
        let mut table = self.root;
        for (level, row) in down(self.levels, 1).zip(1..) {
            let index = index(virt, level);
            let entry = words[self.place(table).ok_or(19u64)? + index];
            let verdict = self.verdict(level, entry);
            out[0] = row;
            let place = 5 * row as usize - 4;
            let numbers = [level, table, index as u64, entry, verdict as u64];
            out[place..place + 5].copy_from_slice(&numbers);
            match verdict {
                Verdict::Absent => return Err(14),
                Verdict::Outside => return Err(19),
                Verdict::Followed => table = frame_of(entry),
                Verdict::LargePage => return Ok((entry & ADDR_MASK) + virt % (1 << 21)),
                Verdict::Last => return Ok((entry & ADDR_MASK) + virt % (1 << 12)),
            }
        }
        Err(14)
    }
}

#[inline(never)]
pub fn show_translate(
    words: &[u64],
    start: u64,
    total: u64,
    levels: u64,
    root: u64,
    virt: u64,
    out: &mut [u64; SHOWN_NUMBERS],
) -> Line {
    *out = [0; SHOWN_NUMBERS];
    let tables = Tables { start, total, levels, root };
    if !tables.may_walk(words) {
        return Line::refused(BROKEN);
    }
    line(tables.show(words, virt, out))
}
