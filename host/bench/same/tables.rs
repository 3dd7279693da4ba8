//! The page tables: walks on lent words, and the mapper's calls. Levels count from the bottom, 1 the last.

use super::memory::Memory;
use super::{is_levels, line, Answer, BROKEN, PAGE};
use gadulnos::raw::{Line, Marks};

pub const PRESENT: u64 = 1;
pub const WRITABLE: u64 = 2;
const USER: u64 = 4;
pub const HUGE: u64 = 128;
pub const ADDR_MASK: u64 = 0x000F_FFFF_FFFF_F000;

/// The lent frames, the levels and the root, by their numbers.
#[derive(Clone, Copy)]
pub struct Tables {
    pub start: u64,
    pub total: u64,
    pub levels: u64,
    pub root: u64,
}

impl Tables {
    #[inline]
    pub fn are_broken(&self, words: &[u64]) -> bool {
        self.total > 8192
            || (words.len() as u64) < self.total * 512
            || self.start > (1 << 40) - self.total
            || self.place(self.root).is_none()
    }

    /// Whether a call that is lent the numbers may walk.
    #[inline]
    pub fn may_walk(&self, words: &[u64]) -> bool {
        is_levels(self.levels) && !self.are_broken(words)
    }

    /// The first word of a lent frame.
    #[inline]
    pub fn place(&self, frame: u64) -> Option<usize> {
        let i = frame.wrapping_sub(self.start);
        (i < self.total).then_some(i as usize * 512)
    }

    /// The entry at which a translation ends, and its level.
    #[inline]
    fn leaf(&self, words: &[u64], virt: u64) -> Result<(u64, u64), u64> {
        let mut table = self.root;
        for level in down(self.levels, 1) {
            let entry = words[self.place(table).ok_or(19u64)? + index(virt, level)];
            if entry & PRESENT == 0 {
                return Err(14);
            }
            if level == 1 || level == 2 && entry & HUGE != 0 {
                return Ok((entry, level));
            }
            table = frame_of(entry);
        }
        Err(14)
    }

    #[inline]
    pub fn translate(&self, words: &[u64], virt: u64) -> Answer {
        let (entry, level) = self.leaf(words, virt)?;
        let low = if level == 2 { 21 } else { 12 };
        Ok((entry & ADDR_MASK) + virt % (1 << low))
    }

    /// Whether all entries on the way to a 4 KiB page, its own too, have these bits.
    #[inline]
    fn all_have(&self, words: &[u64], virt: u64, bits: u64) -> bool {
        let mut table = self.root;
        for level in down(self.levels, 1) {
            let Some(first) = self.place(table) else { return false };
            let entry = words[first + index(virt, level)];
            if entry & bits != bits || level == 2 && entry & HUGE != 0 {
                return false;
            }
            table = frame_of(entry);
        }
        true
    }

    /// Takes a page out of its table, and gives the frame that it was mapped to.
    #[inline]
    pub fn unmap(&self, words: &mut [u64], virt: u64) -> Answer {
        let mut table = self.root;
        for level in down(self.levels, 2) {
            let entry = words[self.place(table).ok_or(19u64)? + index(virt, level)];
            if entry & PRESENT == 0 {
                return Err(14);
            }
            table = frame_of(entry);
        }
        let at = self.place(table).ok_or(19u64)? + index(virt, 1);
        let entry = words[at];
        if entry & PRESENT == 0 {
            return Err(14);
        }
        words[at] = 0;
        Ok(frame_of(entry))
    }
}

/// The levels from the top one down to another.
#[inline]
pub fn down(levels: u64, to: u64) -> impl Iterator<Item = u64> {
    (0..levels + 1 - to).map(move |passed| levels - passed)
}

/// The index of an address at a level.
#[inline]
pub fn index(virt: u64, level: u64) -> usize {
    (virt >> (3 + 9 * level)) as usize % 512
}

#[inline]
pub fn frame_of(entry: u64) -> u64 {
    (entry & ADDR_MASK) / PAGE
}

#[inline]
pub fn entry(phys: u64, writable: bool, user: bool) -> u64 {
    let writable = if writable { WRITABLE } else { 0 };
    let user = if user { USER } else { 0 };
    phys & ADDR_MASK | PRESENT | writable | user
}

#[inline(never)]
pub fn translate(words: &[u64], start: u64, total: u64, levels: u64, root: u64, virt: u64) -> Line {
    let tables = Tables { start, total, levels, root };
    if !tables.may_walk(words) {
        return Line::refused(BROKEN);
    }
    line(tables.translate(words, virt))
}

#[inline(never)]
pub fn user_may(
    words: &[u64],
    start: u64,
    total: u64,
    levels: u64,
    root: u64,
    virt: u64,
    write: bool,
) -> Line {
    let tables = Tables { start, total, levels, root };
    if !tables.may_walk(words) {
        return Line::refused(BROKEN);
    }
    let bits = PRESENT | USER | if write { WRITABLE } else { 0 };
    Line::met(tables.all_have(words, virt, bits).into())
}

#[inline(never)]
pub fn unmap_page(
    words: &mut [u64],
    start: u64,
    total: u64,
    levels: u64,
    root: u64,
    virt: u64,
) -> Line {
    let tables = Tables { start, total, levels, root };
    if !tables.may_walk(words) {
        return Line::refused(BROKEN);
    }
    line(tables.unmap(words, virt))
}

#[inline(never)]
#[allow(clippy::too_many_arguments)]
pub fn map_page(
    words: &mut [u64],
    fields: &mut [u8],
    bits: &mut Marks,
    root: u64,
    virt: u64,
    phys: u64,
    writable: bool,
    user: bool,
) -> Line {
    let Some(mut memory) = Memory::sound(words, fields, bits, root) else {
        return Line::refused(BROKEN);
    };
    line(memory.map(virt, 1, user, entry(phys, writable, user)))
}

#[inline(never)]
#[allow(clippy::too_many_arguments)]
pub fn map_huge_page(
    words: &mut [u64],
    fields: &mut [u8],
    bits: &mut Marks,
    root: u64,
    virt: u64,
    phys: u64,
    gigabyte: bool,
    writable: bool,
    user: bool,
) -> Line {
    let Some(mut memory) = Memory::sound(words, fields, bits, root) else {
        return Line::refused(BROKEN);
    };
    let (size, level) = if gigabyte { (1 << 30, 2) } else { (1 << 21, 1) };
    if (virt | phys) % size != 0 {
        return Line::refused(4);
    }
    line(memory.map(virt, level, user, entry(phys, writable, user) | HUGE))
}
