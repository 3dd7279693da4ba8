//! Document 02's slip 1: mprotect. It 'takes a region's start and size as munmap does, in munmap's order of
//! checks. It makes WRITABLE follow PROT_WRITE on each page of the region that `unmap_page` finds, and stores
//! the new prot'. It is lent what a walk is lent and the mmap list: a broken counter does not make it 10.

use super::memory::Memory;
use super::regions::{named, PROT_WRITE};
use super::{Answer, Model, BROKEN};
use calls::PAGE;
use std::collections::HashSet;

/// Up to so many pages are taken one by one, as the slip says it.
const FEW: u64 = 1 << 16;

impl Model {
    pub fn mprotect(&mut self, addr: u64, size: u64, prot: i32) -> Answer {
        if self.memory().walk_is_broken() {
            return Err(BROKEN);
        }
        let (mut list, next_addr) = self.sound_list()?;
        let i = named(&list, addr, size)?;
        self.protect(addr, list[i].size / PAGE, prot & PROT_WRITE != 0);
        list[i].prot = prot;
        self.store_user(&list, next_addr);
        Ok(0)
    }

    fn protect(&mut self, start: u64, pages: u64, writable: bool) {
        let mut memory = self.memory();
        match pages <= FEW {
            true => memory.protect_one_by_one(start, pages, writable),
            false => memory.protect_by_tables(start, pages, writable),
        }
    }

    /// The words that either way leaves.
    pub fn protected_both_ways(&self, start: u64, pages: u64, writable: bool) -> [Vec<u64>; 2] {
        let (mut one, mut other) = (self.clone(), self.clone());
        one.memory().protect_one_by_one(start, pages, writable);
        other.memory().protect_by_tables(start, pages, writable);
        [one.words, other.words]
    }
}

impl Memory<'_> {
    /// Each page in its turn, on the words that the one before it left.
    fn protect_one_by_one(&mut self, start: u64, pages: u64, writable: bool) {
        for i in 0..pages {
            if let Ok(at) = self.mapped(start + i * PAGE) {
                self.make_writable(at, writable);
            }
        }
    }

    /// Where the pages are too many for that: no walk looks at WRITABLE, so that all entries can be found first.
    fn protect_by_tables(&mut self, start: u64, pages: u64, writable: bool) {
        for at in self.leaves(start, pages) {
            self.make_writable(at, writable);
        }
    }

    /// The words of the last entries of pages that are mapped, found level by level: which pages of which tables
    /// are asked for. A table that many entries lead to stands in the set once.
    fn leaves(&self, start: u64, pages: u64) -> Vec<usize> {
        let root = self.lent(self.root).expect("a root that is lent");
        let ranges = self.ranges(start, pages).into_iter();
        let mut asked: HashSet<(usize, u64, u64)> = ranges.map(|(a, b)| (root, a, b)).collect();
        for level in (2..=self.frames.levels).rev() {
            let below: u64 = 1 << (9 * (level - 1));
            let mut next = HashSet::new();
            for (table, from, to) in asked {
                for index in from / below..=(to - 1) / below {
                    let first = index * below;
                    let (from, to) = (from.max(first) - first, to.min(first + below) - first);
                    let table = self.led_to(table * 512 + index as usize);
                    next.extend(table.map(|table| (table, from, to)));
                }
            }
            asked = next;
        }
        let entries = asked.into_iter().flat_map(|(table, from, to)| {
            (from..to).map(move |index| table * 512 + index as usize)
        });
        entries.filter(|at| self.is_present(*at)).collect()
    }

    /// Pages by their numbers among those that the indices tell apart, the ends left out: one range, two where it
    /// comes round, or all.
    fn ranges(&self, start: u64, pages: u64) -> Vec<(u64, u64)> {
        let all = 1 << (9 * self.frames.levels);
        let first = start / PAGE % all;
        match first + pages {
            _ if pages >= all => vec![(0, all)],
            end if end <= all => vec![(first, end)],
            end => vec![(first, all), (0, end - all)],
        }
    }
}
