//! WRITABLE of a run of pages, last table by last table. No entry on the way depends on it. The port remembers tables
//! that it went through whole, which bounds the time where tables are shared, and no row has such.

use super::tables::{down, frame_of, index, Tables, PRESENT, WRITABLE};
use super::PAGE;

/// The first word of a page's last table, or how many pages from it on are not mapped.
#[inline]
fn last_table(words: &[u64], tables: &Tables, virt: u64) -> Result<usize, u64> {
    let mut table = tables.root;
    for level in down(tables.levels, 2) {
        let width = 1 << (9 * (level - 1));
        let gap = width - virt / PAGE % width;
        // The root is a lent frame, and so is each table that is come to.
        let first = tables.place(table).ok_or(gap)?;
        let entry = words[first + index(virt, level)];
        table = frame_of(entry);
        if entry & PRESENT == 0 || tables.place(table).is_none() {
            return Err(gap);
        }
    }
    tables.place(table).ok_or(1)
}

#[inline]
pub fn protect_pages(words: &mut [u64], tables: &Tables, virt: u64, pages: u64, writable: bool) {
    // All the pages that there are: what lies above the top index is ignored.
    let pages = pages.min(1 << (9 * tables.levels));
    let bit = if writable { WRITABLE } else { 0 };
    let mut done = 0;
    while done < pages {
        let page = virt + done * PAGE;
        match last_table(words, tables, page) {
            Err(gap) => done += gap,
            Ok(first) => {
                let from = index(page, 1);
                let to = (from as u64 + (pages - done)).min(512) as usize;
                for entry in &mut words[first + from..first + to] {
                    if *entry & PRESENT != 0 {
                        *entry = *entry & !WRITABLE | bit;
                    }
                }
                done += (to - from) as u64;
            }
        }
    }
}
