//! Calls on frames, on copy-on-write pages, and page faults.

use crate::raw::{Finding, Line};
use crate::{Board, FaultCode, Frame, Refusal, Tally, VirtAddr};

/// Frames.
impl Board {
    /// Takes the lowest free frame, which is marked then.
    ///
    /// ```
    /// # use gadulnos::*;
    /// # let mut board = Board::start(PhysAddr::new(0x10_0000), PhysAddr::new(0x11_0000), Levels::Four)?;
    /// assert_eq!(board.allocate_frame()?, Frame::new(0x101));
    /// # Ok::<(), Refusal>(())
    /// ```
    pub fn allocate_frame(&mut self) -> Result<Frame, Refusal> {
        Refusal::value(self.parts.allocate_frame()).map(Frame::new)
    }

    /// Gives a frame back: what was found of it.
    ///
    /// ```
    /// # use gadulnos::*;
    /// # let mut board = Board::start(PhysAddr::new(0x10_0000), PhysAddr::new(0x11_0000), Levels::Four)?;
    /// let frame = board.allocate_frame()?;
    /// assert_eq!(board.deallocate_frame(frame), Finding::Freed);
    /// assert_eq!(board.deallocate_frame(frame), Finding::AlreadyFree);
    /// assert_eq!(board.deallocate_frame(Frame::new(0)), Finding::NotHere);
    /// # Ok::<(), Refusal>(())
    /// ```
    pub fn deallocate_frame(&mut self, frame: Frame) -> Finding {
        let found = self.parts.deallocate_frame(frame.get());
        Finding::of(found.value).unwrap_or(Finding::NotHere)
    }

    /// Marks a frame; one that is not on the board is passed over.
    ///
    /// ```
    /// # use gadulnos::*;
    /// # let mut board = Board::start(PhysAddr::new(0x10_0000), PhysAddr::new(0x11_0000), Levels::Four)?;
    /// board.mark_allocated(Frame::new(0x101));
    /// assert_eq!(board.allocate_frame()?, Frame::new(0x102));
    /// # Ok::<(), Refusal>(())
    /// ```
    pub fn mark_allocated(&mut self, frame: Frame) {
        self.parts.mark_allocated(frame.get());
    }

    /// Whether a frame is marked or not on the board.
    ///
    /// ```
    /// # use gadulnos::*;
    /// # let board = Board::start(PhysAddr::new(0x10_0000), PhysAddr::new(0x11_0000), Levels::Four)?;
    /// assert!(board.is_allocated(board.root()));
    /// assert!(!board.is_allocated(Frame::new(0x101)));
    /// assert!(board.is_allocated(Frame::new(0)));
    /// # Ok::<(), Refusal>(())
    /// ```
    pub fn is_allocated(&self, frame: Frame) -> bool {
        self.parts.is_allocated(frame.get()) == Line::met(1)
    }
}

/// Copy-on-write pages and page faults.
impl Board {
    /// Marks the page of an address copy-on-write.
    ///
    /// ```
    /// # use gadulnos::*;
    /// # let mut board = Board::start(PhysAddr::new(0x10_0000), PhysAddr::new(0x11_0000), Levels::Four)?;
    /// board.mark_cow(VirtAddr::new(0x7123))?;
    /// assert!(board.is_cow(VirtAddr::new(0x7000)));
    /// # Ok::<(), Refusal>(())
    /// ```
    pub fn mark_cow(&mut self, addr: VirtAddr) -> Result<(), Refusal> {
        Refusal::done(self.parts.mark_cow(addr.get()))
    }

    /// Takes that mark away, if it is there.
    ///
    /// ```
    /// # use gadulnos::*;
    /// # let mut board = Board::start(PhysAddr::new(0x10_0000), PhysAddr::new(0x11_0000), Levels::Four)?;
    /// board.mark_cow(VirtAddr::new(0x7000))?;
    /// board.unmark_cow(VirtAddr::new(0x7fff));
    /// assert!(board.marked_pages().is_empty());
    /// # Ok::<(), Refusal>(())
    /// ```
    pub fn unmark_cow(&mut self, addr: VirtAddr) {
        self.parts.unmark_cow(addr.get());
    }

    /// Whether the page of an address has it.
    ///
    /// ```
    /// # use gadulnos::*;
    /// # let board = Board::start(PhysAddr::new(0x10_0000), PhysAddr::new(0x11_0000), Levels::Four)?;
    /// assert!(!board.is_cow(VirtAddr::new(0x7000)));
    /// # Ok::<(), Refusal>(())
    /// ```
    pub fn is_cow(&self, addr: VirtAddr) -> bool {
        self.parts.is_cow(addr.get()) == Line::met(1)
    }

    /// A page fault, by the first path (page_fault.rs): of a copy what was found of the page's old frame.
    ///
    /// ```
    /// # use gadulnos::*;
    /// # let mut board = Board::start(PhysAddr::new(0x10_0000), PhysAddr::new(0x11_0000), Levels::Four)?;
    /// let page = VirtAddr::new(0x7000);
    /// let write = FaultCode::WRITE | FaultCode::USER;
    /// assert_eq!(board.fault(page, write)?, Tally::default());
    /// board.mark_cow(page)?;
    /// assert_eq!(board.fault(page, FaultCode::PRESENT | write)?.freed, 1);
    /// let again = board.fault(page, FaultCode::PRESENT | write);
    /// assert_eq!(again, Err(Refusal::WriteToReadOnly));
    /// # Ok::<(), Refusal>(())
    /// ```
    pub fn fault(&mut self, addr: VirtAddr, code: FaultCode) -> Result<Tally, Refusal> {
        Refusal::of_found(self.parts.handle_page_fault(addr.get(), code.bits())).map(Tally::from)
    }

    /// A page fault, by the second path (page_handler.rs).
    ///
    /// ```
    /// # use gadulnos::*;
    /// # let mut board = Board::start(PhysAddr::new(0x10_0000), PhysAddr::new(0x11_0000), Levels::Four)?;
    /// board.second_fault(VirtAddr::new(0x7000), FaultCode::WRITE)?;
    /// assert!(board.translate(VirtAddr::new(0x7000)).is_ok());
    /// # Ok::<(), Refusal>(())
    /// ```
    pub fn second_fault(&mut self, addr: VirtAddr, code: FaultCode) -> Result<(), Refusal> {
        Refusal::done(self.parts.handle_page_fault_second(addr.get(), code.bits()))
    }
}
