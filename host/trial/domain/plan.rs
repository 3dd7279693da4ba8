//! What a call will do to the page tables, as far as arguments and lists decide it, and
//! whether its sums stay below 2^64. Sums wrap as in the wrapping build, so that the walks
//! are foreseen also where one does not.

use crate::state::{is_multiple, page_of, State, SLOTS};
use calls::{Call, LAST, PAGE, USER_WINDOW};

const MAP_FIXED: i32 = 0x10;

/// The walks of a call.
pub enum Steps {
    None,
    /// Take a frame for each page, zero it, map it; on a failed map, unmap if `clean_up`.
    Back {
        start: u64,
        pages: u64,
        clean_up: bool,
    },
    /// Unmap each page and free its frame.
    Release {
        start: u64,
        pages: u64,
    },
    /// Take a frame and map it.
    Demand {
        page: u64,
    },
    /// Copy a page through the temporary page.
    Copy {
        page: u64,
    },
    /// Take a frame and enter it, whatever the leaf holds.
    Overwrite {
        page: u64,
    },
    Map {
        virt: u64,
        phys: u64,
    },
    /// `depth` tables are walked, the root not counted.
    MapHuge {
        virt: u64,
        phys: u64,
        depth: usize,
    },
    Unmap {
        virt: u64,
    },
    Translate {
        addr: u64,
    },
    Take,
    Free {
        frame: u64,
    },
    Mark {
        frame: u64,
    },
}

/// Adds and notes which true sums do not fit in 64 bits.
#[derive(Default)]
pub struct Sums {
    pub above: bool,
    pub edge: bool,
}

impl Sums {
    fn add(&mut self, a: u64, b: u64) -> u64 {
        let (sum, over) = a.overflowing_add(b);
        self.above |= over;
        sum
    }

    fn round_up(&mut self, size: u64) -> u64 {
        self.edge |= size == LAST;
        page_of(self.add(size, PAGE - 1))
    }
}

pub struct Plan {
    pub steps: Steps,
    pub sums: Sums,
    pub over_limit: bool,
}

pub fn plan(state: &State, call: &Call) -> Plan {
    let mut sums = Sums::default();
    let mut over_limit = false;
    let steps = match *call {
        Call::Vmalloc { size } => vmalloc(state, size, &mut sums),
        Call::Vfree { addr } => vfree(state, addr),
        Call::Mmap { given, addr, size, flags, .. } => {
            let range = mmap_range(state, given.then_some(addr), size, flags, &mut sums);
            over_limit = range.map_or(false, |(start, _)| no_room_for_region(state, start));
            match range {
                Some((start, size)) => Steps::Back { start, pages: size / PAGE, clean_up: true },
                None => Steps::None,
            }
        }
        Call::Munmap { addr, size } => munmap(state, addr, size, &mut sums),
        Call::Fault { addr, code } => fault(state, addr, code),
        Call::SecondFault { addr, code } if code & 9 == 0 => {
            Steps::Overwrite { page: page_of(addr) }
        }
        Call::MapPage { virt, phys, .. } => Steps::Map { virt, phys },
        Call::UnmapPage { virt } => Steps::Unmap { virt },
        Call::MapHugePage { virt, phys, gigabyte, .. } => map_huge(virt, phys, gigabyte),
        Call::Translate { addr } => Steps::Translate { addr },
        Call::MarkCow { addr } => {
            let known = state.marked.contains(&page_of(addr));
            over_limit = state.marked.len() >= SLOTS && !known;
            Steps::None
        }
        Call::AllocateFrame => Steps::Take,
        Call::DeallocateFrame { frame } => Steps::Free { frame },
        Call::MarkAllocated { frame } => Steps::Mark { frame },
        _ => Steps::None,
    };
    Plan { steps, sums, over_limit }
}

fn vmalloc(state: &State, size: u64, sums: &mut Sums) -> Steps {
    if size == 0 {
        return Steps::None;
    }
    let size = sums.round_up(size);
    match state.vmalloc().iter().find(|slot| !slot.used && slot.size >= size) {
        Some(slot) => Steps::Back { start: slot.start, pages: size / PAGE, clean_up: false },
        None => Steps::None,
    }
}

fn vfree(state: &State, addr: u64) -> Steps {
    match state.vmalloc().iter().find(|slot| slot.start == addr && slot.used) {
        Some(slot) if addr != 0 => Steps::Release { start: addr, pages: slot.size / PAGE },
        _ => Steps::None,
    }
}

fn munmap(state: &State, addr: u64, size: u64, sums: &mut Sums) -> Steps {
    if size == 0 || !is_multiple(addr, PAGE) {
        return Steps::None;
    }
    let size = sums.round_up(size);
    match state.regions.iter().find(|region| region.start == addr && region.size == size) {
        Some(_) => Steps::Release { start: addr, pages: size / PAGE },
        None => Steps::None,
    }
}

fn no_room_for_region(state: &State, start: u64) -> bool {
    let known = state.regions.iter().any(|region| region.start == start);
    state.regions.len() >= SLOTS && !known
}

/// Where mmap will map, and the rounded size.
fn mmap_range(
    state: &State,
    requested: Option<u64>,
    size: u64,
    flags: i32,
    sums: &mut Sums,
) -> Option<(u64, u64)> {
    if size == 0 {
        return None;
    }
    let size = sums.round_up(size);
    let aligned = |addr: &u64| is_multiple(*addr, PAGE);
    let start = match requested {
        Some(addr) if flags & MAP_FIXED != 0 => Some(addr).filter(aligned)?,
        Some(addr) if aligned(&addr) => {
            let end = sums.add(addr, size);
            let free = first_overlap(state, addr, end).is_none();
            if free {
                addr
            } else {
                search(state, size, sums)?
            }
        }
        _ => search(state, size, sums)?,
    };
    let end = sums.add(start, size);
    sums.round_up(end);
    Some((start, size))
}

/// The end of the first region that overlaps a range.
fn first_overlap(state: &State, start: u64, end: u64) -> Option<u64> {
    let mut ends =
        state.regions.iter().map(|region| (region.start, region.start.wrapping_add(region.size)));
    ends.find(|&(region_start, region_end)| start < region_end && end > region_start)
        .map(|(_, end)| end)
}

fn search(state: &State, size: u64, sums: &mut Sums) -> Option<u64> {
    let mut addr = state.next_addr;
    loop {
        let end = sums.add(addr, size);
        if end >= USER_WINDOW.1 {
            return None;
        }
        match first_overlap(state, addr, end) {
            Some(region_end) => addr = sums.round_up(region_end),
            None => return Some(addr),
        }
    }
}

fn fault(state: &State, addr: u64, code: u64) -> Steps {
    let [present, write, reserved, fetch] = [1, 2, 8, 16].map(|bit| code & bit != 0);
    let page = page_of(addr);
    let kernel_heap = (0xFFFF_FF00_0000_0000..0xFFFF_FF80_0000_0000).contains(&page);
    let in_range = page < 1 << 47 || (kernel_heap && !fetch);
    if !reserved && !present && in_range {
        Steps::Demand { page }
    } else if !reserved && present && write && state.marked.contains(&page) {
        Steps::Copy { page }
    } else {
        Steps::None
    }
}

fn map_huge(virt: u64, phys: u64, gigabyte: bool) -> Steps {
    let (size, depth) = if gigabyte { (1 << 30, 2) } else { (1 << 21, 3) };
    if !is_multiple(virt, size) || !is_multiple(phys, size) {
        return Steps::None;
    }
    Steps::MapHuge { virt, phys, depth }
}
