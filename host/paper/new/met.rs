//! Calls that are drawn to be met.

use super::draw::{Aim, Draw};
use super::wish::SLOTS;
use crate::seats::theorem::top;
use crate::seats::Live;
use calls::{Call, PAGE};
use gadulnos::{FaultCode, Levels, MapFlags, Prot};

/// Protections, the usual ones more often.
const PROTECTIONS: [i32; 8] = [
    Prot::READ.bits() | Prot::WRITE.bits(),
    Prot::READ.bits() | Prot::WRITE.bits(),
    Prot::READ.bits() | Prot::WRITE.bits(),
    Prot::READ.bits(),
    Prot::READ.bits(),
    Prot::READ.bits() | Prot::EXEC.bits(),
    Prot::WRITE.bits(),
    0,
];

/// Addresses that programs are loaded at, or that a table ends behind.
const PLACES: [u64; 6] = [0x1000, 0x1F_F000, 0x40_0000, 0x60_0000, 0x3FFF_F000, 0x7FFF_F000];

/// Bytes that a size has less than its pages.
const ODD: [u64; 8] = [0, 0, 0, 1, 96, 2048, 3192, PAGE - 1];

/// Calls with the board in view.
impl Draw<'_> {
    /// A size of so many pages at most: whole ones, a byte, or something odd.
    pub fn size(&mut self, most: u64) -> u64 {
        let pages = 1 + self.random.below(most.clamp(1, 6));
        match self.random.below(5) {
            0 => 1 + self.random.below(pages) * PAGE,
            1 | 2 => pages * PAGE,
            _ => pages * PAGE - self.random.one_of(&ODD),
        }
    }

    /// How many pages a region may well have, so that others find frames too.
    fn most_pages(&self) -> u64 {
        self.board.free_frames() / 3
    }

    /// The live regions of the kernel's, or of the user's.
    pub fn live(&self, kernel: bool) -> Vec<Live> {
        Live::on(&self.board).into_iter().filter(|live| live.kernel == kernel).collect()
    }

    /// One of the live regions; nothing if there is none.
    pub fn one_live(&mut self, live: &[Live]) -> Option<Live> {
        live.get(self.random.below(live.len() as u64) as usize).copied()
    }

    /// Any call, by what stands: releases rather where frames are few, and fewer of them in the paper's last third, so
    /// that regions are left live.
    pub fn any(&mut self, met_left: u64) -> Call {
        let live = Live::on(&self.board);
        let count = live.len() as u64;
        let must_make = count < 2 && count + met_left <= 3;
        let may_release = count > 0 && count + met_left >= 5;
        let releases = match (met_left * 3 > self.wish.calls, self.board.free_frames() < 4) {
            (true, true) => 6,
            (true, false) => 2,
            (false, true) => 3,
            (false, false) => 1,
        };
        match self.random.below(10) {
            _ if must_make || count == 0 => self.region(),
            kind if may_release && kind < releases => self.release(&live),
            9 => self.look(&live),
            7 | 8 if self.wish.faults => self.fault_on_demand(&live),
            _ => self.region(),
        }
    }

    /// A new region, the kernel's or the user's.
    fn region(&mut self) -> Call {
        let most = self.most_pages();
        let size = self.size(most);
        if self.random.chance(3, 7) {
            return Call::Vmalloc { size };
        }
        let prot = self.random.one_of(&PROTECTIONS);
        let common = MapFlags::PRIVATE.bits() | MapFlags::ANONYMOUS.bits();
        let flags = if self.random.chance(1, 4) { common } else { 0 };
        let fixed = flags | MapFlags::FIXED.bits();
        let addr = self.place(size);
        match self.random.below(8) {
            _ if self.wish.plain => Call::Mmap { given: false, addr: 0, size, prot, flags },
            0 | 1 => Call::Mmap { given: true, addr, size, prot, flags: fixed },
            2 => Call::Mmap { given: true, addr, size, prot, flags },
            3 => {
                let addr = addr + 1 + self.random.below(PAGE - 1);
                Call::Mmap { given: true, addr, size, prot, flags }
            }
            _ => Call::Mmap { given: false, addr: 0, size, prot, flags },
        }
    }

    /// Where a range may begin: behind a region, in one, where one was released, or elsewhere; below the top.
    fn place(&mut self, size: u64) -> u64 {
        let users = self.live(false);
        let levels = self.board.levels();
        let pages = (size / PAGE + 1) * PAGE;
        let next = self.board.next_addr().get();
        let (kind, gap) = (self.random.below(9), self.random.below(3) * PAGE);
        let addr = match (kind, self.one_live(&users)) {
            (0 | 1, Some(live)) => live.start.saturating_add(live.size).saturating_add(gap),
            (2, Some(live)) => live.start,
            (3, Some(live)) => live.start.saturating_sub(pages).saturating_sub(gap),
            (4, _) => self.once_released().unwrap_or(next),
            (5, _) => top(levels) - pages - gap,
            (6, _) if levels == Levels::Five => 1 << (47 + self.random.below(9)),
            (6 | 7, _) => self.random.one_of(&PLACES),
            _ => next.saturating_add(gap),
        };
        addr.min(top(levels) - pages) / PAGE * PAGE
    }

    /// The start of a region that was released.
    pub fn once_released(&mut self) -> Option<u64> {
        let at = self.random.below(self.released.len() as u64) as usize;
        self.released.get(at).copied()
    }

    /// The release of a live region.
    fn release(&mut self, live: &[Live]) -> Call {
        let fewer = if self.random.chance(1, 3) { self.random.below(PAGE) } else { 0 };
        match self.one_live(live) {
            Some(region) => region.release(fewer),
            None => self.region(),
        }
    }

    /// A translation of an address in a live region.
    fn look(&mut self, live: &[Live]) -> Call {
        match self.one_live(live) {
            Some(region) => {
                let addr = region.start.wrapping_add(self.random.below(region.size));
                Call::Translate { addr }
            }
            None => self.region(),
        }
    }

    /// A fault that a page is mapped for: beside a region, or elsewhere.
    fn fault_on_demand(&mut self, live: &[Live]) -> Call {
        let near = self.one_live(live).filter(|live| !live.kernel);
        let page = match near {
            Some(live) => live.start.saturating_add(live.size),
            None => self.random.one_of(&PLACES),
        };
        let (user, write) = (FaultCode::USER.bits(), FaultCode::WRITE.bits());
        let code = self.random.one_of(&[user, user | write, user | write, write, 0]);
        Call::Fault { addr: page.saturating_add(self.random.below(PAGE)), code }
    }

    /// A region more in the vmalloc list: a page, or some more while frames suffice for those to come.
    pub fn filling_vmalloc(&mut self) -> Call {
        let to_come = SLOTS.saturating_sub(self.board.kernel_regions().len() as u64);
        let spare = self.board.free_frames().saturating_sub(to_come + 16);
        let pages =
            if spare > 4 && self.random.chance(1, 3) { 2 + self.random.below(2) } else { 1 };
        Call::Vmalloc { size: pages * PAGE - self.random.one_of(&ODD) }
    }

    /// The release of a region of several pages of which no neighbour is free.
    pub fn hole(&mut self) -> Option<Call> {
        let regions = self.board.kernel_regions();
        let holes = regions.windows(3).filter(|three| three.iter().all(|region| region.used));
        let holes = holes.filter_map(|three| three.get(1)).filter(|region| region.size > PAGE);
        let starts: Vec<u64> = holes.map(|region| region.start.get()).collect();
        let at = self.random.below(starts.len() as u64) as usize;
        starts.get(at).map(|addr| Call::Vfree { addr: *addr })
    }

    /// A region that is smaller than the hole.
    pub fn smaller_vmalloc(&mut self) -> Call {
        let size = self.size(2);
        Call::Vmalloc { size }
    }

    /// A region more in the mmap list.
    pub fn filling_mmap(&mut self) -> Call {
        let prot = self.random.one_of(&PROTECTIONS);
        Call::Mmap { given: false, addr: 0, size: 1 + self.random.below(PAGE), prot, flags: 0 }
    }

    /// Calls to try where nothing that was drawn would do, the best first.
    pub fn last_ways(&mut self, aim: Aim) -> Vec<Call> {
        let live = Live::on(&self.board);
        let mut ways = vec![
            Call::Vmalloc { size: PAGE },
            Call::Mmap { given: false, addr: 0, size: PAGE, prot: PROTECTIONS[0], flags: 0 },
        ];
        if let Some(region) = self.one_live(&live).filter(|_| aim == Aim::Any) {
            let (release, look) = (region.release(0), Call::Translate { addr: region.start });
            ways.extend(if live.len() > 2 { [release, look] } else { [look, release] });
        }
        ways
    }
}
