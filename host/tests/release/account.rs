//! What document 01's release paper reads from a list: live regions, regions ever live, the window
//! book and the page tables that there must be. All of it from calls and answers alone.

use crate::report::{equal, equal_at, holds};
use calls::{Call, KERNEL_WINDOW, PAGE, USER_WINDOW};
use gadulnos::raw::{Line, Told};
use std::collections::BTreeSet;
use trial::state::{Region, Slot, State, SLOTS};

const MAP_FIXED: i32 = 0x10;

/// A live region: the kernel's (vmalloc) or the user's (mmap).
#[derive(Clone, Copy, PartialEq, Eq, Debug)]
pub enum Live {
    Kernel { start: u64, size: u64 },
    User(Region),
}

impl Live {
    pub fn start(&self) -> u64 {
        match self {
            Live::Kernel { start, .. } => *start,
            Live::User(region) => region.start,
        }
    }

    pub fn size(&self) -> u64 {
        match self {
            Live::Kernel { size, .. } => *size,
            Live::User(region) => region.size,
        }
    }

    pub fn pages(&self) -> impl Iterator<Item = u64> {
        let start = self.start();
        (0..self.size() / PAGE).map(move |i| start + i * PAGE)
    }
}

/// A run of leading indices: how many, and the address bits that they are.
pub type Run = (u64, u64);

/// The leading runs of a page, 'neither empty nor whole': one to three indices on four levels, one to four on
/// five.
fn runs(page: u64, levels: u64) -> impl Iterator<Item = Run> {
    let indices = page / PAGE % (1 << (9 * levels));
    (1..levels).map(move |length| (length, indices >> (9 * (levels - length))))
}

/// What a fixed or page-aligned hinted range may reach: 2^47 on four levels, 2^56 on five.
pub fn top(levels: u64) -> u64 {
    1 << (11 + 9 * levels)
}

#[derive(Clone)]
pub struct Account {
    pub levels: u64,
    pub live: Vec<Live>,
    pub ever_live: Vec<Live>,
    pub runs: BTreeSet<Run>,
    /// The window book, its parts in the order of their addresses.
    pub book: Vec<Slot>,
    /// How often a vmalloc cut a larger part while the book had 256.
    pub cuts: u64,
    next_addr: u64,
}

/// Rounded up to a page; a met call's size can be.
fn rounded(size: u64) -> u64 {
    (size + (PAGE - 1)) / PAGE * PAGE
}

/// Whether a fixed or page-aligned hinted range ends above the top.
pub fn is_high(call: &Call, levels: u64) -> bool {
    match *call {
        Call::Mmap { given: true, addr, size, flags, .. } => {
            let named = flags & MAP_FIXED != 0 || addr % PAGE == 0;
            let pages = (u128::from(size) + 4095) / 4096;
            named && u128::from(addr) + pages * 4096 > top(levels).into()
        }
        _ => false,
    }
}

impl Account {
    pub fn fresh(levels: u64) -> Account {
        let window =
            Slot { start: KERNEL_WINDOW.0, size: KERNEL_WINDOW.1 - KERNEL_WINDOW.0, used: false };
        Account {
            levels,
            live: Vec::new(),
            ever_live: Vec::new(),
            runs: BTreeSet::new(),
            book: vec![window],
            cuts: 0,
            next_addr: USER_WINDOW.0,
        }
    }

    /// Notes a call and its answer. Refused calls change nothing here.
    pub fn note(&mut self, call: &Call, line: Line) -> Result<(), String> {
        if line.number != 0 {
            return Ok(());
        }
        match *call {
            Call::Vmalloc { size } => {
                let (start, size) = (line.value, rounded(size));
                self.born(Live::Kernel { start, size });
                self.take_part(start, size)
            }
            Call::Mmap { size, prot, flags, .. } => {
                let region = Region { start: line.value, size: rounded(size), prot, flags };
                self.next_addr = region.start + region.size;
                self.born(Live::User(region));
                Ok(())
            }
            Call::Vfree { addr } => {
                self.died(addr, true)?;
                self.free_part(addr)
            }
            Call::Munmap { addr, .. } => self.died(addr, false),
            _ => Err(format!("{call} is no call of the release paper")),
        }
    }

    /// That a release, which is about to be noted, freed a frame for every page of its region and found none that
    /// was free or off the board, and that no other call tells of frames.
    pub fn gives_back(&self, call: &Call, told: Told) -> Result<(), String> {
        let region = match *call {
            Call::Vfree { addr } => self.find(addr, true),
            Call::Munmap { addr, .. } => self.find(addr, false),
            _ => None,
        };
        let freed = match (told.line.number, region) {
            (0, Some(at)) => self.live[at].size() / PAGE,
            _ => 0,
        };
        equal_at(call, told.tally, [freed, 0, 0])
    }

    /// The place of a live region.
    fn find(&self, addr: u64, kernel: bool) -> Option<usize> {
        let is =
            |live: &Live| live.start() == addr && matches!(live, Live::Kernel { .. }) == kernel;
        self.live.iter().position(is)
    }

    fn born(&mut self, region: Live) {
        self.live.push(region);
        self.ever_live.push(region);
        let levels = self.levels;
        self.runs.extend(region.pages().flat_map(|page| runs(page, levels)));
    }

    fn died(&mut self, addr: u64, kernel: bool) -> Result<(), String> {
        let at = self.find(addr, kernel).ok_or(format!("{addr:x} to be a live region's"))?;
        self.live.remove(at);
        Ok(())
    }

    /// 'A met vmalloc takes the free part at its answer. If it exceeds the rounded size, the tail becomes a
    /// free part while the book has fewer than 256; at 256 the part is cut, the tail struck out.'
    fn take_part(&mut self, start: u64, size: u64) -> Result<(), String> {
        let free = |part: &Slot| !part.used && part.start == start;
        let at = self.book.iter().position(free).ok_or(format!("a free part at {start:x}"))?;
        let part = self.book[at];
        holds(part.size >= size, &format!("a part of {size:x} bytes at {start:x}"))?;
        self.book[at] = Slot { start, size, used: true };
        if part.size > size {
            match self.book.len() < SLOTS {
                true => {
                    let tail = Slot { start: start + size, size: part.size - size, used: false };
                    self.book.insert(at + 1, tail);
                }
                false => self.cuts += 1,
            }
        }
        Ok(())
    }

    /// 'A met vfree frees its part and joins all adjoining free parts.'
    fn free_part(&mut self, start: u64) -> Result<(), String> {
        let used = |part: &Slot| part.used && part.start == start;
        let at = self.book.iter().position(used).ok_or(format!("a used part at {start:x}"))?;
        self.book[at].used = false;
        let parts = std::mem::take(&mut self.book);
        for part in parts {
            match self.book.last_mut() {
                Some(last) if !last.used && !part.used && last.start + last.size == part.start => {
                    last.size += part.size;
                }
                _ => self.book.push(part),
            }
        }
        Ok(())
    }

    /// That the lists, next_addr and the counter are what calls and answers tell.
    pub fn check(&self, state: &State) -> Result<(), String> {
        equal_at("the vmalloc list and the window book", state.vmalloc(), &self.book[..])?;
        let mut regions: Vec<Region> = self.live.iter().filter_map(user).collect();
        regions.sort_by_key(|region| region.start);
        equal_at("the mmap list and the live regions", &state.regions, &regions)?;
        let used: Vec<u64> = self.book.iter().filter(|part| part.used).map(|p| p.start).collect();
        let mut live: Vec<u64> = self.live.iter().filter_map(kernel).collect();
        live.sort_unstable();
        equal_at("the used parts and the live regions", used, live)?;
        equal_at("next_addr", state.next_addr, self.next_addr)?;
        equal_at("the marked pages", state.marked.len(), 0)?;
        let pages: u64 = self.live.iter().map(|live| live.size() / PAGE).sum();
        let wanted = 1 + self.runs.len() as u64 + pages;
        equal_at("the counter: root, tables, live pages", state.allocated, wanted)?;
        equal(state.marked_frames(), wanted)
    }
}

pub fn user(live: &Live) -> Option<Region> {
    match live {
        Live::User(region) => Some(*region),
        Live::Kernel { .. } => None,
    }
}

pub fn kernel(live: &Live) -> Option<u64> {
    match live {
        Live::Kernel { start, .. } => Some(*start),
        Live::User(_) => None,
    }
}
