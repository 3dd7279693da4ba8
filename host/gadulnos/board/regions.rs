//! Calls on regions: vmalloc and vfree, mmap, munmap and mprotect.

use crate::{Board, MapFlags, Prot, Refusal, Tally, VirtAddr};

/// Regions.
impl Board {
    /// A new region of the kernel's, of so many bytes rounded up to pages: its address.
    ///
    /// ```
    /// # use gadulnos::*;
    /// # let mut board = Board::start(PhysAddr::new(0x10_0000), PhysAddr::new(0x11_0000), Levels::Four)?;
    /// assert_eq!(board.vmalloc(5000)?, VirtAddr::new(0xffff_ffc0_0000_0000));
    /// assert_eq!(board.vmalloc(0), Err(Refusal::SizeZero));
    /// # Ok::<(), Refusal>(())
    /// ```
    pub fn vmalloc(&mut self, size: u64) -> Result<VirtAddr, Refusal> {
        Refusal::value(self.parts.vmalloc(size)).map(VirtAddr::new)
    }

    /// Releases the kernel's region that starts at an address: what was found of the frames of its pages.
    ///
    /// ```
    /// # use gadulnos::*;
    /// # let mut board = Board::start(PhysAddr::new(0x10_0000), PhysAddr::new(0x11_0000), Levels::Four)?;
    /// let region = board.vmalloc(5000)?;
    /// assert_eq!(board.vfree(region)?, Tally { freed: 2, ..Tally::default() });
    /// assert_eq!(board.vfree(region), Err(Refusal::RegionNotFound));
    /// # Ok::<(), Refusal>(())
    /// ```
    pub fn vfree(&mut self, addr: VirtAddr) -> Result<Tally, Refusal> {
        Refusal::of_found(self.parts.vfree(addr.get())).map(Tally::from)
    }

    /// A new region of the user's, at the address wished for if there is one: its address. With [`MapFlags::FIXED`] the
    /// wish is a command; a wish that is no multiple of 4096 does not count.
    ///
    /// ```
    /// # use gadulnos::*;
    /// # let mut board = Board::start(PhysAddr::new(0x10_0000), PhysAddr::new(0x11_0000), Levels::Four)?;
    /// let prot = Prot::READ | Prot::WRITE;
    /// let free = MapFlags::PRIVATE | MapFlags::ANONYMOUS;
    /// assert_eq!(board.mmap(None, 5000, prot, free)?, VirtAddr::new(0x1000_0000_0000));
    /// let wish = Some(VirtAddr::new(0x1000));
    /// assert_eq!(board.mmap(wish, 1, prot, free | MapFlags::FIXED)?, VirtAddr::new(0x1000));
    /// let odd = Some(VirtAddr::new(0x1001));
    /// assert_eq!(board.mmap(odd, 1, prot, MapFlags::FIXED), Err(Refusal::Unaligned));
    /// # Ok::<(), Refusal>(())
    /// ```
    pub fn mmap(
        &mut self,
        wish: Option<VirtAddr>,
        size: u64,
        prot: Prot,
        flags: MapFlags,
    ) -> Result<VirtAddr, Refusal> {
        let addr = wish.map_or(0, VirtAddr::get);
        let line = self.parts.mmap(wish.is_some(), addr, size, prot.bits(), flags.bits());
        Refusal::value(line).map(VirtAddr::new)
    }

    /// Releases the user's region that starts at an address and whose size `size` rounds to.
    ///
    /// ```
    /// # use gadulnos::*;
    /// # let mut board = Board::start(PhysAddr::new(0x10_0000), PhysAddr::new(0x11_0000), Levels::Four)?;
    /// let region = board.mmap(None, 5000, Prot::READ, MapFlags::none())?;
    /// assert_eq!(board.munmap(region, 4096), Err(Refusal::RegionNotFound));
    /// assert_eq!(board.munmap(region, 8192)?.freed, 2);
    /// # Ok::<(), Refusal>(())
    /// ```
    pub fn munmap(&mut self, addr: VirtAddr, size: u64) -> Result<Tally, Refusal> {
        Refusal::of_found(self.parts.munmap(addr.get(), size)).map(Tally::from)
    }

    /// Another protection for such a region. Its pages become writable or not; no frame and no translation changes.
    ///
    /// ```
    /// # use gadulnos::*;
    /// # let mut board = Board::start(PhysAddr::new(0x10_0000), PhysAddr::new(0x11_0000), Levels::Four)?;
    /// let region = board.mmap(None, 1, Prot::READ | Prot::WRITE, MapFlags::none())?;
    /// assert!(board.user_may(region, Access::Write));
    /// board.mprotect(region, 1, Prot::READ)?;
    /// assert!(!board.user_may(region, Access::Write));
    /// # Ok::<(), Refusal>(())
    /// ```
    pub fn mprotect(&mut self, addr: VirtAddr, size: u64, prot: Prot) -> Result<(), Refusal> {
        Refusal::done(self.parts.mprotect(addr.get(), size, prot.bits()))
    }

    /// Where mmap's search finds so many bytes, not rounded, and how many regions it compares.
    ///
    /// ```
    /// # use gadulnos::*;
    /// # let mut board = Board::start(PhysAddr::new(0x10_0000), PhysAddr::new(0x11_0000), Levels::Four)?;
    /// let region = board.mmap(None, 1, Prot::READ, MapFlags::none())?;
    /// let behind = VirtAddr::new(region.get() + 4096);
    /// assert_eq!(board.find_free_region(1), (Ok(behind), 1));
    /// # Ok::<(), Refusal>(())
    /// ```
    pub fn find_free_region(&self, size: u64) -> (Result<VirtAddr, Refusal>, u64) {
        let (line, compared) = self.parts.find_free_region(size);
        (Refusal::value(line).map(VirtAddr::new), compared)
    }
}
