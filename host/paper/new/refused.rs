//! Calls that are drawn to be refused.

use super::draw::Draw;
use super::wish::SLOTS;
use crate::seats::Live;
use calls::{Call, KERNEL_WINDOW, LAST, PAGE, USER_WINDOW};
use gadulnos::{FaultCode, MapFlags, Prot, Refusal};

/// The numbers that calls of a release paper answer, and those of faults that leave nothing behind.
const USUAL: [Refusal; 6] = [
    Refusal::SizeZero,
    Refusal::Unaligned,
    Refusal::TooLarge,
    Refusal::NotMapped,
    Refusal::NoRegion,
    Refusal::RegionNotFound,
];
const OF_FAULTS: [Refusal; 5] = [
    Refusal::ReservedBit,
    Refusal::InvalidAddress,
    Refusal::InstructionFetch,
    Refusal::ProtectionViolation,
    Refusal::WriteToReadOnly,
];

impl Draw<'_> {
    /// A call that should be refused, with a number that came less often than others so far.
    pub fn refused(&mut self) -> Call {
        let mut numbers = USUAL.to_vec();
        if self.wish.faults {
            numbers.extend(OF_FAULTS);
        }
        if self.board.user_regions().len() as u64 >= SLOTS {
            numbers.push(Refusal::ListFull);
        }
        let drawn = &self.drawn.refused;
        let often = |refusal: &Refusal| drawn.get(&refusal.number()).copied().unwrap_or_default();
        let least = numbers.iter().map(often).min().unwrap_or_default();
        // At times any of them, since a number that cannot be had now would be tried for ever.
        if !self.random.chance(1, 4) {
            numbers.retain(|refusal| often(refusal) == least);
        }
        let refusal = self.random.one_of(&numbers);
        self.refused_with(refusal)
    }

    fn refused_with(&mut self, refusal: Refusal) -> Call {
        match refusal {
            Refusal::SizeZero => self.empty(),
            Refusal::Unaligned => self.unaligned(),
            Refusal::TooLarge => self.too_large(),
            Refusal::NoRegion => self.no_room(),
            Refusal::RegionNotFound => self.unknown(),
            Refusal::ListFull => self.filling_mmap(),
            Refusal::NotMapped => Call::Translate { addr: self.elsewhere() },
            _ => self.refused_fault(refusal),
        }
    }

    /// A fixed mmap, or one without an address.
    fn mmap(&self, wish: Option<u64>, size: u64) -> Call {
        let flags = if wish.is_some() { MapFlags::FIXED.bits() } else { 0 };
        let (given, addr) = (wish.is_some(), wish.unwrap_or_default());
        Call::Mmap { given, addr, size, prot: (Prot::READ | Prot::WRITE).bits(), flags }
    }

    /// A live region of the user's; if there is none, one that might be.
    fn user_region(&mut self) -> Live {
        let live = self.live(false);
        let none = Live { kernel: false, start: USER_WINDOW.0, size: PAGE };
        self.one_live(&live).unwrap_or(none)
    }

    /// An address behind a region, or one that was released.
    fn elsewhere(&mut self) -> u64 {
        let live = Live::on(&self.board);
        let inside = self.random.below(PAGE);
        let page = match (self.random.below(2), self.one_live(&live), self.once_released()) {
            (0, _, Some(start)) => start,
            (_, Some(live), _) => live.start.wrapping_add(live.size),
            _ => USER_WINDOW.0,
        };
        page.wrapping_add(inside)
    }

    /// Size 0.
    fn empty(&mut self) -> Call {
        match self.random.below(3) {
            0 => Call::Vmalloc { size: 0 },
            1 => self.mmap(None, 0),
            _ => Call::Munmap { addr: self.user_region().start, size: 0 },
        }
    }

    /// An address inside a page.
    fn unaligned(&mut self) -> Call {
        let Live { start, size, .. } = self.user_region();
        let inside = 1 + self.random.below(PAGE - 1);
        match self.random.below(2) {
            0 => self.mmap(Some(start.wrapping_add(size).wrapping_add(inside)), PAGE),
            _ => Call::Munmap { addr: start.wrapping_add(inside), size },
        }
    }

    /// A size that cannot be rounded, or a range that ends above the last page.
    fn too_large(&mut self) -> Call {
        let odd = 1 + self.random.below(PAGE - 1);
        let size = LAST + odd;
        match self.random.below(4) {
            0 => Call::Vmalloc { size },
            1 => self.mmap(None, size),
            2 => self.mmap(Some(LAST - PAGE), PAGE + odd),
            _ => Call::Munmap { addr: self.user_region().start, size },
        }
    }

    /// More than there can be room for.
    fn no_room(&mut self) -> Call {
        let window = KERNEL_WINDOW.1 - KERNEL_WINDOW.0;
        let odd = 1 + self.random.below(PAGE);
        match self.random.below(2) {
            0 => Call::Vmalloc { size: window + odd },
            _ => self.mmap(None, USER_WINDOW.1 + odd),
        }
    }

    /// A region that there is not: released already, of another size, with another start, or the other list's.
    fn unknown(&mut self) -> Call {
        let Live { start, size, .. } = self.user_region();
        let live = self.live(true);
        let kernel = self.one_live(&live).map_or(KERNEL_WINDOW.0, |live| live.start);
        let released = self.once_released().unwrap_or_default();
        match self.random.below(7) {
            0 => Call::Munmap { addr: start, size: size.saturating_add(1) },
            1 => Call::Munmap { addr: start, size: size.saturating_sub(PAGE).max(1) },
            2 => Call::Munmap { addr: start.wrapping_add(PAGE), size },
            3 => Call::Munmap { addr: kernel, size: PAGE },
            4 => Call::Vfree { addr: kernel.wrapping_add(PAGE) },
            5 => Call::Vfree { addr: start },
            _ => Call::Vfree { addr: released },
        }
    }

    /// A fault that is refused with this number, if the address is right.
    fn refused_fault(&mut self, refusal: Refusal) -> Call {
        let live = Live::on(&self.board);
        let standing = self.one_live(&live).map_or(USER_WINDOW.0, |live| live.start);
        let addr = standing.wrapping_add(self.random.below(PAGE));
        let (present, user) = (FaultCode::PRESENT, FaultCode::USER);
        let (addr, code) = match refusal {
            Refusal::ReservedBit => (addr, FaultCode::RESERVED | present),
            Refusal::InvalidAddress => (KERNEL_WINDOW.0, FaultCode::WRITE),
            Refusal::InstructionFetch => (addr, FaultCode::FETCH | present | user),
            Refusal::ProtectionViolation => (addr, present | user),
            _ => (addr, FaultCode::WRITE | present | user),
        };
        Call::Fault { addr, code: code.bits() }
    }
}
