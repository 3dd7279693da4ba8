//! A call as a value, made on a board's parts.

use super::{is_vmalloc_addr, Line, Marks, Parts, Told};
use calls::{user, writable, Call};
use std::ops::DerefMut;

impl<W, B, M> Parts<W, B, M>
where
    W: DerefMut<Target = [u64]>,
    B: DerefMut<Target = [u8]>,
    M: DerefMut<Target = Marks>,
{
    /// Makes a call. The bool of a question that nothing can refuse is its value.
    ///
    /// ```
    /// # use gadulnos::raw::*;
    /// # let mut p = Parts::lend(16);
    /// # p.start(0x10_0000, 0x11_0000);
    /// let told = p.play(&calls::Call::Vmalloc { size: 0 });
    /// assert_eq!(told, Told::refused(1));
    /// ```
    pub fn play(&mut self, call: &Call) -> Told {
        let line = match *call {
            Call::Vfree { addr } => return self.vfree(addr).into(),
            Call::Munmap { addr, size } => return self.munmap(addr, size).into(),
            Call::Fault { addr, code } => return self.handle_page_fault(addr, code).into(),
            Call::Vmalloc { size } => self.vmalloc(size),
            Call::Mmap { given, addr, size, prot, flags } => {
                self.mmap(given, addr, size, prot, flags)
            }
            Call::Translate { addr } => self.translate(addr),
            Call::SecondFault { addr, code } => self.handle_page_fault_second(addr, code),
            Call::MapPage { virt, phys, flags } => {
                self.map_page(virt, phys, writable(flags), user(flags))
            }
            Call::UnmapPage { virt } => self.unmap_page(virt),
            Call::MapHugePage { virt, phys, gigabyte, flags } => {
                self.map_huge_page(virt, phys, gigabyte, writable(flags), user(flags))
            }
            Call::MarkCow { addr } => self.mark_cow(addr),
            Call::UnmarkCow { addr } => self.unmark_cow(addr),
            Call::IsCow { addr } => self.is_cow(addr),
            Call::AllocateFrame => self.allocate_frame(),
            Call::DeallocateFrame { frame } => self.deallocate_frame(frame),
            Call::MarkAllocated { frame } => self.mark_allocated(frame),
            Call::IsAllocated { frame } => self.is_allocated(frame),
            Call::IsVmallocAddr { addr } => Line::met(is_vmalloc_addr(addr).into()),
            Call::Mprotect { addr, size, prot } => self.mprotect(addr, size, prot),
            Call::Counts => self.allocated_frames(),
            Call::UserMay { addr, write } => self.user_may(addr, write),
        };
        line.into()
    }
}
