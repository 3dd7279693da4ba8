//! Words, frames and root of a call that takes or frees frames, and runs of pages on them.

use super::frames::Frames;
use super::tables::{down, entry, frame_of, index, Tables, PRESENT};
use super::{Answer, Tally, PAGE};
use gadulnos::raw::Marks;

pub struct Memory<'a> {
    pub words: &'a mut [u64],
    pub frames: Frames<'a>,
    pub tables: Tables,
}

/// What a look at a page finds of the pages from it on.
enum Span {
    /// So many leaves from this word on.
    Leaves(usize, u64),
    /// So many pages that are not mapped.
    Gap(u64),
}

impl<'a> Memory<'a> {
    /// The parts, if none of them is broken.
    #[inline(always)]
    pub fn sound(
        words: &'a mut [u64],
        fields: &'a mut [u8],
        bits: &'a mut Marks,
        root: u64,
    ) -> Option<Memory<'a>> {
        let frames = Frames::sound(fields, bits)?;
        let (start, total, levels) = (frames.start(), frames.total(), frames.levels());
        let tables = Tables { start, total, levels, root };
        (!tables.are_broken(words)).then_some(Memory { words, frames, tables })
    }

    /// A frame's words, all of them 0.
    #[inline]
    pub fn zero(&mut self, frame: u64) {
        let first = (frame - self.tables.start) as usize * 512;
        self.words[first..first + 512].fill(0);
    }

    /// The lowest free frame, zeroed.
    #[inline(never)]
    pub fn fresh(&mut self) -> Answer {
        let frame = self.frames.take()?;
        self.zero(frame);
        Ok(frame)
    }

    /// The word of an entry at a level. Tables above it that are absent are made.
    #[inline(always)]
    pub fn enter(&mut self, virt: u64, to: u64, user: bool) -> Result<usize, u64> {
        let mut table = self.tables.root;
        for level in down(self.tables.levels, to + 1) {
            let at = self.tables.place(table).ok_or(19u64)? + index(virt, level);
            if self.words[at] & PRESENT == 0 {
                let frame = self.fresh()?;
                self.words[at] = entry(frame * PAGE, true, user);
            }
            table = frame_of(self.words[at]);
        }
        Ok(self.tables.place(table).ok_or(19u64)? + index(virt, to))
    }

    #[inline(always)]
    pub fn map(&mut self, virt: u64, level: u64, user: bool, entry: u64) -> Answer {
        let at = self.enter(virt, level, user)?;
        if self.words[at] & PRESENT != 0 {
            return Err(12);
        }
        self.words[at] = entry;
        Ok(0)
    }

    #[inline]
    pub fn unmap(&mut self, virt: u64) -> Answer {
        self.tables.unmap(self.words, virt)
    }

    /// Maps pages to fresh frames. A refusal has its number, 11 or 13, and how many pages stand.
    #[inline]
    pub fn map_pages(
        &mut self,
        virt: u64,
        pages: u64,
        writable: bool,
        user: bool,
    ) -> Result<(), (u64, u64)> {
        for i in 0..pages {
            let frame = self.fresh().map_err(|number| (number, i))?;
            let leaf = entry(frame * PAGE, writable, user);
            self.map(virt + i * PAGE, 1, user, leaf).map_err(|_| (13, i))?;
        }
        Ok(())
    }

    /// Unmaps pages and frees their frames, passing over those that are not mapped, span by span: what was found
    /// of the frames. From 2^18 pages on the port goes block by block and remembers tables that it is done with;
    /// no row of the benchmark has so many.
    #[inline]
    pub fn free_pages(&mut self, virt: u64, pages: u64) -> Tally {
        // All the pages that there are: what lies above the top index is ignored.
        let pages = pages.min(1 << (9 * self.tables.levels));
        let (mut done, mut tally) = (0, [0; 3]);
        while done < pages {
            match self.span(virt + done * PAGE) {
                Span::Gap(gap) => done += gap,
                Span::Leaves(at, leaves) => {
                    let leaves = leaves.min(pages - done);
                    for at in at..at + leaves as usize {
                        let leaf = self.words[at];
                        if leaf & PRESENT != 0 {
                            self.words[at] = 0;
                            self.frames.free(frame_of(leaf), &mut tally);
                        }
                    }
                    done += leaves;
                }
            }
        }
        tally
    }

    #[inline]
    fn span(&self, virt: u64) -> Span {
        let mut table = self.tables.root;
        let mut above = [usize::MAX; 4];
        for level in down(self.tables.levels, 2) {
            let width = 1 << (9 * (level - 1));
            let gap = Span::Gap(width - virt / PAGE % width);
            // The root is a lent frame, and so is each table that is come to.
            let Some(first) = self.tables.place(table) else { return gap };
            let at = first + index(virt, level);
            above[level as usize - 2] = at;
            let entry = self.words[at];
            table = frame_of(entry);
            if entry & PRESENT == 0 || self.tables.place(table).is_none() {
                return gap;
            }
        }
        let Some(first) = self.tables.place(table) else { return Span::Gap(1) };
        let at = first + index(virt, 1);
        // Up to the table's end, or to a leaf that is an entry on the way to it: clearing that one
        // changes the way.
        let stop =
            above.iter().filter(|&&on_the_way| (at..first + 512).contains(&on_the_way)).min();
        Span::Leaves(at, (stop.map_or(first + 512, |stop| stop + 1) - at) as u64)
    }
}
