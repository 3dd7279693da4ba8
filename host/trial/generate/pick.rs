//! Picks numbers that are likely to matter on a given state.

use super::Random;
use crate::state::{page_of, Region, State};
use calls::{KERNEL_WINDOW, LAST, MOST_LEVELS, PAGE, TEMPORARY, USER_WINDOW};

/// Sizes at which something changes.
const SIZES: [u64; 12] = [
    0,
    1,
    PAGE,
    2 * PAGE,
    1 << 21,
    1 << 30,
    1 << 37,
    0x6FFF_FFFF_E000,
    0x6FFF_FFFF_F000,
    1 << 47,
    LAST,
    LAST - PAGE,
];

/// Addresses at which something changes: the first `FOR_ANY` on every board, the others on five levels alone.
const ADDRESSES: [u64; 19] = [
    0,
    PAGE,
    USER_WINDOW.0,
    USER_WINDOW.1,
    1 << 47,
    0xFFFF_8000_0000_0000,
    0xFFFF_FF00_0000_0000,
    0xFFFF_FF80_0000_0000,
    KERNEL_WINDOW.0,
    KERNEL_WINDOW.1,
    TEMPORARY,
    TEMPORARY - PAGE,
    LAST,
    LAST - PAGE,
    1 << 48,
    1 << 56,
    1 << 57,
    0xFF00_0000_0000_0000,
    0xFFFE_0000_0000_0000,
];

/// The addresses up to LAST - PAGE.
const FOR_ANY: usize = 14;

pub struct Picker<'a> {
    pub state: &'a State<'a>,
    pub random: &'a mut Random,
    pub recent: &'a [u64],
}

impl Picker<'_> {
    /// A number, or one a byte or a page away from it.
    pub fn near(&mut self, value: u64) -> u64 {
        let steps = [0, 0, 0, 1, PAGE - 1, PAGE, PAGE + 1];
        let step = self.random.one_of(&steps);
        if self.random.chance(1, 2) {
            value.wrapping_add(step)
        } else {
            value.wrapping_sub(step)
        }
    }

    /// A size of a few pages, which the board can often serve.
    pub fn fitting_size(&mut self) -> u64 {
        if self.random.chance(1, 12) {
            return self.size();
        }
        let most = (self.state.total / 4).clamp(1, 8);
        (1 + self.random.below(most)) * PAGE - self.random.one_of(&[0, 0, 1, PAGE - 1])
    }

    /// Any size: a few pages, about the whole board, or a boundary. One that would use up
    /// the frames comes seldom, since little happens after it.
    pub fn size(&mut self) -> u64 {
        let size = match self.random.below(8) {
            0..=2 => self.random.below(6) * PAGE + self.random.one_of(&[0, 1, PAGE - 1]),
            3 => self.random.below(2 * self.state.total + 2) * PAGE,
            4 => self.random.word() >> self.random.below(64),
            _ => {
                let size = self.random.one_of(&SIZES);
                self.near(size)
            }
        };
        let free = self.state.total.saturating_sub(self.state.allocated);
        let uses_up = size / PAGE >= free && size < USER_WINDOW.1 - USER_WINDOW.0;
        if uses_up && free > 0 && self.random.chance(7, 8) {
            return self.fitting_size();
        }
        size
    }

    /// Any address: in or beside something that stands, sharing indices with it, at a
    /// boundary, or far off.
    pub fn address(&mut self) -> u64 {
        match self.random.below(12) {
            0..=2 => self.standing_address(),
            3..=4 => {
                let addr = self.standing_address();
                self.near(addr)
            }
            5..=6 => self.relative(),
            10..=11 => self.walked_address(),
            7..=8 => {
                let known = if self.has_five() { ADDRESSES.len() } else { FOR_ANY };
                let addr = self.random.one_of(&ADDRESSES[..known]);
                self.near(addr)
            }
            _ => self.random.word() >> self.random.below(20),
        }
    }

    fn has_five(&self) -> bool {
        self.state.levels == MOST_LEVELS
    }

    /// An address that shares its first indices, one or all, with something that stands, the bits above its
    /// top index, which are ignored, at times being others.
    fn relative(&mut self) -> u64 {
        let addr = self.standing_address();
        let widths = if self.has_five() { &[12, 21, 30, 39, 48][..] } else { &[12, 21, 30, 39] };
        let below = self.random.one_of(widths);
        let mask = (1u64 << below) - 1;
        let mut addr = addr & !mask | self.random.word() & mask;
        if self.random.chance(1, 4) {
            addr ^= self.random.word() & u64::MAX << self.state.width();
        }
        addr
    }

    /// The start, the end or a page of a region, next_addr, a marked page or an address
    /// used before.
    fn standing_address(&mut self) -> u64 {
        match self.random.below(6) {
            0..=1 => match self.live_region() {
                Some(region) => self.inside(region.start, region.size),
                None => self.state.next_addr,
            },
            2 => match self.used_slot() {
                Some((start, size)) => self.inside(start, size),
                None => KERNEL_WINDOW.0,
            },
            3 if !self.state.marked.is_empty() => self.random.one_of(&self.state.marked),
            4 => self.state.next_addr,
            _ if !self.recent.is_empty() => self.random.one_of(self.recent),
            _ => TEMPORARY,
        }
    }

    /// An address found by going down the tables along present entries, mostly, its highest
    /// bit repeated above.
    fn walked_address(&mut self) -> u64 {
        let mut addr = 0;
        let mut table = self.state.lent(self.state.root);
        let width = self.state.width();
        for shift in (12..width).step_by(9).rev() {
            let words = table.map_or(&[][..], |index| &self.state.words[index * 512..][..512]);
            let present: Vec<u64> =
                (0..words.len() as u64).filter(|&i| words[i as usize] & 1 == 1).collect();
            let index = match present.is_empty() || self.random.chance(1, 12) {
                true => self.random.below(512),
                false => self.random.one_of(&present),
            };
            addr |= index << shift;
            let word = words.get(index as usize).copied().filter(|word| word & 1 == 1);
            table = word.and_then(|word| self.state.lent((word & 0x000F_FFFF_FFFF_F000) / PAGE));
        }
        if addr >> (width - 1) == 1 {
            addr |= u64::MAX << width;
        }
        addr
    }

    fn inside(&mut self, start: u64, size: u64) -> u64 {
        let pages = size / PAGE;
        let page = match self.random.below(4) {
            0 => 0,
            1 => pages,
            2 => pages / 2,
            _ => self.random.below(pages),
        };
        start.wrapping_add(page * PAGE)
    }

    pub fn live_region(&mut self) -> Option<Region> {
        let regions = &self.state.regions;
        (!regions.is_empty()).then(|| self.random.one_of(regions))
    }

    /// A vmalloc region in use: start and size.
    fn used_slot(&mut self) -> Option<(u64, u64)> {
        let used = self.state.vmalloc().iter().filter(|slot| slot.used);
        let used: Vec<_> = used.map(|slot| (slot.start, slot.size)).collect();
        (!used.is_empty()).then(|| self.random.one_of(&used))
    }

    /// Mostly a region in use, else a free region, one freed before, or any address.
    pub fn vfree_address(&mut self) -> u64 {
        match (self.random.below(8), self.used_slot()) {
            (0..=5, Some((start, _))) => start,
            (6, _) if self.state.vmalloc_count > 0 => {
                self.random.one_of(self.state.vmalloc()).start
            }
            _ => self.address(),
        }
    }

    /// An address and an error code: a third of the time a write to a marked page, so that
    /// copies come about.
    pub fn fault(&mut self) -> (u64, u64) {
        match self.random.below(3) {
            0 if !self.state.marked.is_empty() => {
                (self.marked_address(), self.random.one_of(&[3, 3, 7, 0x23]))
            }
            _ => (self.address(), self.code()),
        }
    }

    /// Mostly a page of a region, so that a copy has something to copy.
    pub fn address_to_mark(&mut self) -> u64 {
        match self.live_region() {
            Some(region) if self.random.chance(2, 3) => self.inside(region.start, region.size),
            _ => self.address(),
        }
    }

    pub fn marked_address(&mut self) -> u64 {
        if self.state.marked.is_empty() || self.random.chance(1, 8) {
            return self.address();
        }
        page_of(self.random.one_of(&self.state.marked)) + self.random.below(PAGE)
    }

    /// An error code: mostly the plain ones, at times with bits that mean nothing.
    fn code(&mut self) -> u64 {
        match self.random.below(8) {
            0..=3 => self.random.one_of(&[0, 2, 4, 6]),
            4..=6 => self.random.below(32),
            _ => self.random.word(),
        }
    }

    /// A physical address: a lent frame, one beside the board, or any.
    pub fn phys(&mut self) -> u64 {
        match self.random.below(8) {
            0..=4 => self.frame().wrapping_mul(PAGE),
            5 => self.frame().wrapping_mul(PAGE) | self.random.word() & 0xFFF0_0000_0000_0FFF,
            6 => self.random.one_of(&[0, 0x4000_0000, 0x20_0000, 1 << 51, u64::MAX]),
            _ => self.random.word(),
        }
    }

    /// A frame number: mostly a lent one.
    pub fn frame(&mut self) -> u64 {
        let (start, total) = (self.state.start_frame, self.state.total);
        match self.random.below(10) {
            0..=7 => start + self.random.below(total),
            8 => self.random.one_of(&[start.wrapping_sub(1), start + total, 0, u64::MAX, 1 << 52]),
            _ => self.random.word(),
        }
    }

    pub fn flag_byte(&mut self) -> u8 {
        match self.random.below(8) {
            0 => self.random.word() as u8,
            _ => self.random.below(4) as u8,
        }
    }

    /// Protection bits or flags.
    pub fn signed(&mut self) -> i32 {
        match self.random.below(8) {
            0..=4 => self.random.below(4) as i32,
            5 => self.random.one_of(&[-1, i32::MIN, i32::MAX, 0x10, -17, -3]),
            6 => 1 << self.random.below(31),
            _ => self.random.word() as i32,
        }
    }
}
