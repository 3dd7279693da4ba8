//! Frames and page tables. Levels count from the bottom, 1 the last.

use super::{is_levels, Answer};
use calls::PAGE;
use gadulnos::raw::{Bitmap, Frames, TallyNumbers, NONE};
use trial::state::is_multiple;

pub const PRESENT: u64 = 1;
pub const WRITABLE: u64 = 2;
pub const USER: u64 = 4;
pub const HUGE: u64 = 128;
const ADDR_MASK: u64 = 0x000F_FFFF_FFFF_F000;

/// More steps than a release may take before the model gives up.
const MANY_STEPS: u64 = 1 << 20;

pub struct Memory<'a> {
    pub words: &'a mut [u64],
    pub frames: Frames,
    pub bitmap: Bitmap,
    pub root: u64,
}

/// The level of a page's entry, and the one that HUGE is looked at on.
const LAST_LEVEL: u64 = 1;
const LAST_BUT_ONE: u64 = 2;

/// What stands at a page.
enum Found {
    /// The word of its entry.
    Leaf(usize),
    /// So many pages from here on are not mapped.
    Gap(u64),
}

impl Memory<'_> {
    /// 'total above 8192, lent words too few, frames ending above 2^52, root outside', or other levels.
    pub fn walk_is_broken(&self) -> bool {
        let Frames { start_frame, total, levels, .. } = self.frames;
        !is_levels(levels)
            || total > 8192
            || (self.words.len() as u64) < total * 512
            || u128::from(start_frame) + u128::from(total) > 1 << 40
            || self.lent(self.root).is_none()
    }

    /// The index of a lent frame.
    pub fn lent(&self, frame: u64) -> Option<usize> {
        let index = frame.checked_sub(self.frames.start_frame)?;
        (index < self.frames.total).then_some(index as usize)
    }

    pub fn is_marked(&self, frame: u64) -> bool {
        self.lent(frame).map_or(true, |i| self.bitmap[i / 64] >> (i % 64) & 1 == 1)
    }

    /// Marks a frame; 'only a bit that changes moves the counter'.
    pub fn mark(&mut self, frame: u64) -> u64 {
        if let (Some(i), false) = (self.lent(frame), self.is_marked(frame)) {
            self.bitmap[i / 64] |= 1 << (i % 64);
            self.frames.allocated += 1;
        }
        0
    }

    /// Frees a frame: 'freed, already free, not on this board', by their places in a tally, 0, 1 and 2.
    pub fn free(&mut self, frame: u64) -> usize {
        match self.lent(frame) {
            Some(i) if self.is_marked(frame) => {
                self.bitmap[i / 64] &= !(1 << (i % 64));
                self.frames.allocated -= 1;
                0
            }
            Some(_) => 1,
            None => 2,
        }
    }

    /// Marks the lowest free frame.
    pub fn take(&mut self) -> Answer {
        let mut frames = self.frames.start_frame..self.frames.start_frame + self.frames.total;
        let free = frames.find(|&frame| !self.is_marked(frame)).ok_or(11u64)?;
        self.mark(free);
        Ok(free)
    }

    pub fn zero(&mut self, frame: u64) {
        let first = self.lent(frame).expect("a frame that was taken") * 512;
        self.words[first..first + 512].fill(0);
    }

    /// The word of an entry; 19 for a table outside the lent frames.
    fn place(&self, table: u64, index: usize) -> Result<usize, u64> {
        self.lent(table).map(|frame| frame * 512 + index).ok_or(19)
    }

    /// Goes down from the top level to an entry's word at level `to`. An absent table is made, with this
    /// user bit, or the walk ends with 14.
    fn descend(&mut self, virt: u64, to: u64, make: Option<u64>) -> Result<usize, u64> {
        let mut table = self.root;
        for level in (to + 1..=self.frames.levels).rev() {
            let at = self.place(table, index(virt, level))?;
            if self.words[at] & PRESENT == 0 {
                let user = make.ok_or(14u64)?;
                let frame = self.take()?;
                self.zero(frame);
                self.words[at] = (frame * PAGE) | PRESENT | WRITABLE | user;
            }
            table = frame_of(self.words[at]);
        }
        self.place(table, index(virt, to))
    }

    /// Enters a page.
    pub fn map(&mut self, virt: u64, entry: u64) -> Answer {
        self.map_at(LAST_LEVEL, virt, entry)
    }

    fn map_at(&mut self, level: u64, virt: u64, entry: u64) -> Answer {
        let at = self.descend(virt, level, Some(entry & USER))?;
        if self.words[at] & PRESENT != 0 {
            return Err(12);
        }
        self.words[at] = entry;
        Ok(0)
    }

    pub fn map_huge(&mut self, virt: u64, phys: u64, gigabyte: bool, entry: u64) -> Answer {
        let (size, level) = if gigabyte { (1 << 30, LAST_BUT_ONE) } else { (1 << 21, LAST_LEVEL) };
        if !is_multiple(virt, size) || !is_multiple(phys, size) {
            return Err(4);
        }
        self.map_at(level, virt, entry)
    }

    /// Enters a page whatever its entry holds.
    pub fn overwrite(&mut self, virt: u64, entry: u64) -> Answer {
        let at = self.descend(virt, LAST_LEVEL, Some(entry & USER))?;
        self.words[at] = entry;
        Ok(0)
    }

    pub fn unmap(&mut self, virt: u64) -> Answer {
        let at = self.mapped(virt)?;
        let leaf = self.words[at];
        self.words[at] = 0;
        Ok(frame_of(leaf))
    }

    /// The word of a page's entry, if the page is mapped.
    pub fn mapped(&mut self, virt: u64) -> Result<usize, u64> {
        let at = self.descend(virt, LAST_LEVEL, None)?;
        self.is_present(at).then_some(at).ok_or(14)
    }

    pub fn is_present(&self, at: usize) -> bool {
        self.words[at] & PRESENT != 0
    }

    /// The lent frame that a present entry names.
    pub fn led_to(&self, at: usize) -> Option<usize> {
        self.lent(frame_of(self.words[at])).filter(|_| self.is_present(at))
    }

    /// WRITABLE as it is asked for, every other bit of the word as it stands.
    pub fn make_writable(&mut self, at: usize, writable: bool) {
        self.words[at] = self.words[at] & !WRITABLE | if writable { WRITABLE } else { 0 };
    }

    pub fn translate(&self, virt: u64) -> Answer {
        let (leaf, is_huge) = self.leaf(virt, &mut Vec::new())?;
        let low = if is_huge { 21 } else { 12 };
        Ok((leaf & ADDR_MASK) + virt % (1 << low))
    }

    /// Whether user code may: these bits are 'set in all four entries', those that a translation reads, and
    /// they lead to a 4 KiB page. 'No where nothing translates' or a HUGE entry of the last level but one does.
    pub fn user_may(&self, virt: u64, bits: u64) -> bool {
        let mut reads = Vec::new();
        let is_page = matches!(self.leaf(virt, &mut reads), Ok((_, false)));
        is_page && reads.iter().all(|[_, _, _, word]| word & bits == bits)
    }

    /// The entry that a translation ends at, and whether it is a HUGE one of the last level but one. What it
    /// reads on the way is noted: level, table, index and word.
    pub fn leaf(&self, virt: u64, reads: &mut Vec<[u64; 4]>) -> Result<(u64, bool), u64> {
        let mut table = self.root;
        for level in (LAST_LEVEL..=self.frames.levels).rev() {
            let index = index(virt, level);
            let word = self.words[self.place(table, index)?];
            reads.push([level, table, index as u64, word]);
            if word & PRESENT == 0 {
                return Err(14);
            }
            let is_huge = level == LAST_BUT_ONE && word & HUGE != 0;
            if level == LAST_LEVEL || is_huge {
                return Ok((word, is_huge));
            }
            table = frame_of(word);
        }
        unreachable!("the last level ends the walk")
    }

    /// Unmaps pages and frees their frames, one after the other, passing over those that are not
    /// mapped: 'how many frames fell in each'. Nothing if it took too many steps.
    pub fn release(&mut self, start: u64, pages: u64) -> Option<TallyNumbers> {
        // Once all indices came round, no page is mapped: an absent entry stays absent.
        let pages = pages.min(1 << (9 * self.frames.levels));
        let (mut done, mut tally) = (0, NONE);
        for _ in 0..MANY_STEPS {
            if done >= pages {
                return Some(tally);
            }
            match self.find(start.wrapping_add(done.wrapping_mul(PAGE))) {
                Found::Gap(gap) => done += gap,
                Found::Leaf(at) => {
                    let frame = frame_of(self.words[at]);
                    self.words[at] = 0;
                    tally[self.free(frame)] += 1;
                    done += 1;
                }
            }
        }
        None
    }

    fn find(&self, virt: u64) -> Found {
        let mut table = self.root;
        for level in (LAST_LEVEL..=self.frames.levels).rev() {
            let below: u64 = 1 << (9 * (level - 1));
            match self.place(table, index(virt, level)) {
                Ok(at) if self.words[at] & PRESENT == 0 => {
                    return Found::Gap(below - (virt / PAGE) % below);
                }
                Ok(at) if level == LAST_LEVEL => return Found::Leaf(at),
                Ok(at) => table = frame_of(self.words[at]),
                // The table is outside: all that the entry above leads to.
                Err(_) => return Found::Gap(512 * below - (virt / PAGE) % (512 * below)),
            }
        }
        unreachable!("the last level ends the walk")
    }
}

/// The index of an address at a level: bits 20 to 12 at the last, 56 to 48 at the fifth.
fn index(virt: u64, level: u64) -> usize {
    (virt >> (3 + 9 * level)) as usize % 512
}

fn frame_of(word: u64) -> u64 {
    (word & ADDR_MASK) / PAGE
}

pub fn entry(phys: u64, writable: bool, user: bool) -> u64 {
    let bits = [(writable, WRITABLE), (user, USER)];
    let bits = bits.into_iter().filter(|(set, _)| *set).map(|(_, bit)| bit);
    bits.fold(phys & ADDR_MASK | PRESENT, |word, bit| word | bit)
}
