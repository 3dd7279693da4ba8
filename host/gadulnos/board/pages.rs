//! Calls on pages: mappings, translations, what user code may do.

use crate::raw::Line;
use crate::{Access, Board, Frame, HugeSize, PhysAddr, Refusal, Rights, VirtAddr, Walk};

/// Pages.
impl Board {
    /// The physical address of an address.
    ///
    /// ```
    /// # use gadulnos::*;
    /// # let mut board = Board::start(PhysAddr::new(0x10_0000), PhysAddr::new(0x11_0000), Levels::Four)?;
    /// let region = board.vmalloc(1)?;
    /// let inside = VirtAddr::new(region.get() + 0x10);
    /// assert_eq!(board.translate(inside)?, PhysAddr::new(0x10_1010));
    /// assert_eq!(board.translate(VirtAddr::new(0)), Err(Refusal::NotMapped));
    /// # Ok::<(), Refusal>(())
    /// ```
    pub fn translate(&self, addr: VirtAddr) -> Result<PhysAddr, Refusal> {
        Refusal::value(self.parts.translate(addr.get())).map(PhysAddr::new)
    }

    /// A translation with the entries that it reads.
    ///
    /// ```
    /// # use gadulnos::*;
    /// # let mut board = Board::start(PhysAddr::new(0x10_0000), PhysAddr::new(0x11_0000), Levels::Four)?;
    /// let region = board.vmalloc(1)?;
    /// let walk = board.walk(region);
    /// assert_eq!(walk.answer, board.translate(region));
    /// assert_eq!(walk.steps.len(), 4);
    /// assert_eq!(walk.steps[0].table, board.root());
    /// # Ok::<(), Refusal>(())
    /// ```
    pub fn walk(&self, addr: VirtAddr) -> Walk {
        self.parts.show_translate(addr.get()).into()
    }

    /// Whether user code may have this access to an address.
    ///
    /// ```
    /// # use gadulnos::*;
    /// # let mut board = Board::start(PhysAddr::new(0x10_0000), PhysAddr::new(0x11_0000), Levels::Four)?;
    /// let region = board.mmap(None, 1, Prot::READ, MapFlags::none())?;
    /// assert!(board.user_may(region, Access::Read));
    /// assert!(!board.user_may(region, Access::Write));
    /// # Ok::<(), Refusal>(())
    /// ```
    pub fn user_may(&self, addr: VirtAddr, access: Access) -> bool {
        self.parts.user_may(addr.get(), access == Access::Write) == Line::met(1)
    }

    /// Maps a page to the frame at a physical address, on the board or not.
    ///
    /// ```
    /// # use gadulnos::*;
    /// # let mut board = Board::start(PhysAddr::new(0x10_0000), PhysAddr::new(0x11_0000), Levels::Four)?;
    /// let (page, frame) = (VirtAddr::new(0x7000), PhysAddr::new(0x20_0000));
    /// board.map_page(page, frame, Rights { writable: true, user: true })?;
    /// assert_eq!(board.translate(page)?, frame);
    /// assert_eq!(board.map_page(page, frame, Rights::default()), Err(Refusal::AlreadyMapped));
    /// # Ok::<(), Refusal>(())
    /// ```
    pub fn map_page(
        &mut self,
        virt: VirtAddr,
        phys: PhysAddr,
        rights: Rights,
    ) -> Result<(), Refusal> {
        let Rights { writable, user } = rights;
        Refusal::done(self.parts.map_page(virt.get(), phys.get(), writable, user))
    }

    /// Maps a huge page, as rinux does: docs/DIFFERENCES.md says how that departs from Intel's.
    ///
    /// ```
    /// # use gadulnos::*;
    /// # let mut board = Board::start(PhysAddr::new(0x10_0000), PhysAddr::new(0x11_0000), Levels::Four)?;
    /// let (page, frame) = (VirtAddr::new(0x4000_0000), PhysAddr::new(0x4000_0000));
    /// board.map_huge_page(page, frame, HugeSize::OneGib, Rights::default())?;
    /// let odd = VirtAddr::new(0x1000);
    /// let refused = board.map_huge_page(odd, frame, HugeSize::TwoMib, Rights::default());
    /// assert_eq!(refused, Err(Refusal::HugeUnaligned));
    /// # Ok::<(), Refusal>(())
    /// ```
    pub fn map_huge_page(
        &mut self,
        virt: VirtAddr,
        phys: PhysAddr,
        size: HugeSize,
        rights: Rights,
    ) -> Result<(), Refusal> {
        let Rights { writable, user } = rights;
        let gigabyte = size == HugeSize::OneGib;
        Refusal::done(self.parts.map_huge_page(virt.get(), phys.get(), gigabyte, writable, user))
    }

    /// Takes a page's mapping away: the frame that it was mapped to, which stays marked.
    ///
    /// ```
    /// # use gadulnos::*;
    /// # let mut board = Board::start(PhysAddr::new(0x10_0000), PhysAddr::new(0x11_0000), Levels::Four)?;
    /// let region = board.vmalloc(1)?;
    /// assert_eq!(board.unmap_page(region)?, Frame::new(0x101));
    /// assert!(board.is_allocated(Frame::new(0x101)));
    /// # Ok::<(), Refusal>(())
    /// ```
    pub fn unmap_page(&mut self, virt: VirtAddr) -> Result<Frame, Refusal> {
        Refusal::value(self.parts.unmap_page(virt.get())).map(Frame::new)
    }
}
