//! A board's parts, and the calls on them.

use super::*;
use std::ops::DerefMut;

/// All that the calls are lent. The parts may stand in vectors and a box or in memory of the host's own.
#[derive(PartialEq, Eq)]
pub struct Parts<W = Vec<u64>, B = Vec<u8>, M = Box<Marks>> {
    /// Frame number n sits at word (n - start_frame) * 512.
    pub words: W,
    /// The frame record.
    pub fields: B,
    /// The bitmap.
    pub bits: M,
    /// The root's frame number.
    pub root: u64,
    /// The vmalloc list.
    pub kernel: B,
    /// The mmap list.
    pub user: B,
    /// The copy-on-write pages.
    pub marked: B,
}

impl<W: Clone, B: Clone, M: Clone> Clone for Parts<W, B, M> {
    fn clone(&self) -> Self {
        let Parts { words, fields, bits, root, kernel, user, marked } = self;
        Parts {
            words: words.clone(),
            fields: fields.clone(),
            bits: bits.clone(),
            root: *root,
            kernel: kernel.clone(),
            user: user.clone(),
            marked: marked.clone(),
        }
    }

    /// Copies into the memory that is there.
    fn clone_from(&mut self, other: &Self) {
        let Parts { words, fields, bits, root, kernel, user, marked } = other;
        self.words.clone_from(words);
        self.fields.clone_from(fields);
        self.bits.clone_from(bits);
        self.root = *root;
        self.kernel.clone_from(kernel);
        self.user.clone_from(user);
        self.marked.clone_from(marked);
    }
}

impl Parts {
    /// Memory for a board of this many frames, all zero; `start` makes it one.
    ///
    /// ```
    /// # use gadulnos::raw::*;
    /// assert_eq!(Parts::lend(16).words.len(), 16 * 512);
    /// ```
    pub fn lend(frames: usize) -> Parts {
        Parts {
            words: vec![0; frames * 512],
            fields: vec![0; Frames::BYTES],
            bits: Box::new([0; BITMAP_BYTES]),
            root: 0,
            kernel: vec![0; Kernel::BYTES],
            user: vec![0; User::BYTES],
            marked: vec![0; Marked::BYTES],
        }
    }
}

/// Each call, lent the parts that it needs. The free function of the same name says what it answers.
impl<W, B, M> Parts<W, B, M>
where
    W: DerefMut<Target = [u64]>,
    B: DerefMut<Target = [u8]>,
    M: DerefMut<Target = Marks>,
{
    /// [`start`](super::start), lent these parts.
    ///
    /// ```
    /// # use gadulnos::raw::*;
    /// # let mut p = Parts::lend(16);
    /// assert_eq!(p.start(0x10_0000, 0x11_0000), Line::met(0));
    /// ```
    pub fn start(&mut self, from: u64, to: u64) -> Line {
        let Parts { words, fields, bits, root, kernel, user, marked } = self;
        start(words, fields, bits, root, kernel, user, marked, from, to)
    }

    /// [`start_levels`](super::start_levels), lent these parts.
    ///
    /// ```
    /// # use gadulnos::raw::*;
    /// # let mut p = Parts::lend(16);
    /// assert_eq!(p.start_levels(0x10_0000, 0x11_0000, 5), Line::met(0));
    /// ```
    pub fn start_levels(&mut self, from: u64, to: u64, levels: u64) -> Line {
        let Parts { words, fields, bits, root, kernel, user, marked } = self;
        start_levels(words, fields, bits, root, kernel, user, marked, from, to, levels)
    }

    /// [`init`](super::init), lent these parts.
    ///
    /// ```
    /// # use gadulnos::raw::*;
    /// # let mut p = Parts::lend(16);
    /// assert_eq!(p.init(0x1800, 0x3800), Line::met(0));
    /// ```
    pub fn init(&mut self, from: u64, to: u64) -> Line {
        init(&mut self.fields, &mut self.bits, from, to)
    }

    /// [`is_allocated`](super::is_allocated), lent these parts.
    ///
    /// ```
    /// # use gadulnos::raw::*;
    /// # let mut p = Parts::lend(16);
    /// # p.start(0x10_0000, 0x11_0000);
    /// assert_eq!(p.is_allocated(0x101), Line::met(0));
    /// ```
    pub fn is_allocated(&self, frame: u64) -> Line {
        is_allocated(&self.fields, &self.bits, frame)
    }

    /// [`mark_allocated`](super::mark_allocated), lent these parts.
    ///
    /// ```
    /// # use gadulnos::raw::*;
    /// # let mut p = Parts::lend(16);
    /// # p.start(0x10_0000, 0x11_0000);
    /// assert_eq!(p.mark_allocated(0x101), Line::met(0));
    /// ```
    pub fn mark_allocated(&mut self, frame: u64) -> Line {
        mark_allocated(&mut self.fields, &mut self.bits, frame)
    }

    /// [`allocate_frame`](super::allocate_frame), lent these parts.
    ///
    /// ```
    /// # use gadulnos::raw::*;
    /// # let mut p = Parts::lend(16);
    /// # p.start(0x10_0000, 0x11_0000);
    /// assert_eq!(p.allocate_frame(), Line::met(0x101));
    /// ```
    pub fn allocate_frame(&mut self) -> Line {
        allocate_frame(&mut self.fields, &mut self.bits)
    }

    /// [`deallocate_frame`](super::deallocate_frame), lent these parts.
    ///
    /// ```
    /// # use gadulnos::raw::*;
    /// # let mut p = Parts::lend(16);
    /// # p.start(0x10_0000, 0x11_0000);
    /// assert_eq!(p.deallocate_frame(0x100), Line::met(Finding::Freed as u64));
    /// ```
    pub fn deallocate_frame(&mut self, frame: u64) -> Line {
        deallocate_frame(&mut self.fields, &mut self.bits, frame)
    }

    /// [`free_frames`](super::free_frames), lent these parts.
    ///
    /// ```
    /// # use gadulnos::raw::*;
    /// # let mut p = Parts::lend(16);
    /// # p.start(0x10_0000, 0x11_0000);
    /// assert_eq!(p.free_frames(), Line::met(15));
    /// ```
    pub fn free_frames(&self) -> Line {
        free_frames(&self.fields, &self.bits)
    }

    /// [`allocated_frames`](super::allocated_frames), lent these parts.
    ///
    /// ```
    /// # use gadulnos::raw::*;
    /// # let mut p = Parts::lend(16);
    /// # p.start(0x10_0000, 0x11_0000);
    /// assert_eq!(p.allocated_frames(), Line::met(1));
    /// ```
    pub fn allocated_frames(&self) -> Line {
        allocated_frames(&self.fields, &self.bits)
    }

    /// [`total_frames`](super::total_frames), lent these parts.
    ///
    /// ```
    /// # use gadulnos::raw::*;
    /// # let mut p = Parts::lend(16);
    /// # p.start(0x10_0000, 0x11_0000);
    /// assert_eq!(p.total_frames(), Line::met(16));
    /// ```
    pub fn total_frames(&self) -> Line {
        total_frames(&self.fields, &self.bits)
    }

    /// The frame record; a part of another length counts as zeros.
    ///
    /// ```
    /// # use gadulnos::raw::*;
    /// # let mut p = Parts::lend(16);
    /// # p.start(0x10_0000, 0x11_0000);
    /// let record = Frames { start_frame: 0x100, total: 16, allocated: 1, levels: 4 };
    /// assert_eq!(p.frames(), record);
    /// ```
    pub fn frames(&self) -> Frames {
        let none = Frames { start_frame: 0, total: 0, allocated: 0, levels: 0 };
        Frames::unpack(&self.fields).unwrap_or(none)
    }

    /// [`translate`](super::translate), lent these parts.
    ///
    /// ```
    /// # use gadulnos::raw::*;
    /// # let mut p = Parts::lend(16);
    /// # p.start(0x10_0000, 0x11_0000);
    /// assert_eq!(p.translate(0), Line::refused(14));
    /// ```
    pub fn translate(&self, virt: u64) -> Line {
        let Frames { start_frame, total, levels, .. } = self.frames();
        translate(&self.words, start_frame, total, levels, self.root, virt)
    }

    /// A translation and the entries that it read.
    ///
    /// ```
    /// # use gadulnos::raw::*;
    /// # let mut p = Parts::lend(16);
    /// # p.start(0x10_0000, 0x11_0000);
    /// assert_eq!(p.show_translate(0).rows[0].verdict, Verdict::Absent);
    /// ```
    pub fn show_translate(&self, virt: u64) -> Shown {
        let Frames { start_frame, total, levels, .. } = self.frames();
        let mut out = [0; SHOWN_NUMBERS];
        let (words, root) = (&self.words, self.root);
        let answer = show_translate(words, start_frame, total, levels, root, virt, &mut out);
        Shown::unpack(answer, &out).expect("a working in every call")
    }

    /// [`user_may`](super::user_may), lent these parts.
    ///
    /// ```
    /// # use gadulnos::raw::*;
    /// # let mut p = Parts::lend(16);
    /// # p.start(0x10_0000, 0x11_0000);
    /// assert_eq!(p.user_may(0, true), Line::met(0));
    /// ```
    pub fn user_may(&self, virt: u64, write: bool) -> Line {
        let Frames { start_frame, total, levels, .. } = self.frames();
        user_may(&self.words, start_frame, total, levels, self.root, virt, write)
    }

    /// [`map_page`](super::map_page), lent these parts.
    ///
    /// ```
    /// # use gadulnos::raw::*;
    /// # let mut p = Parts::lend(16);
    /// # p.start(0x10_0000, 0x11_0000);
    /// assert_eq!(p.map_page(0x7000, 0x20_0000, true, true), Line::met(0));
    /// ```
    pub fn map_page(&mut self, virt: u64, phys: u64, writable: bool, user: bool) -> Line {
        let Parts { words, fields, bits, root, .. } = self;
        map_page(words, fields, bits, *root, virt, phys, writable, user)
    }

    /// [`map_huge_page`](super::map_huge_page), lent these parts.
    ///
    /// ```
    /// # use gadulnos::raw::*;
    /// # let mut p = Parts::lend(16);
    /// # p.start(0x10_0000, 0x11_0000);
    /// assert_eq!(p.map_huge_page(0x1000, 0, false, true, true), Line::refused(4));
    /// ```
    pub fn map_huge_page(
        &mut self,
        virt: u64,
        phys: u64,
        gigabyte: bool,
        writable: bool,
        user: bool,
    ) -> Line {
        let Parts { words, fields, bits, root, .. } = self;
        map_huge_page(words, fields, bits, *root, virt, phys, gigabyte, writable, user)
    }

    /// [`unmap_page`](super::unmap_page), lent these parts.
    ///
    /// ```
    /// # use gadulnos::raw::*;
    /// # let mut p = Parts::lend(16);
    /// # p.start(0x10_0000, 0x11_0000);
    /// assert_eq!(p.unmap_page(0x7000), Line::refused(14));
    /// ```
    pub fn unmap_page(&mut self, virt: u64) -> Line {
        let Frames { start_frame, total, levels, .. } = self.frames();
        unmap_page(&mut self.words, start_frame, total, levels, self.root, virt)
    }

    /// [`vmalloc`](super::vmalloc), lent these parts.
    ///
    /// ```
    /// # use gadulnos::raw::*;
    /// # let mut p = Parts::lend(16);
    /// # p.start(0x10_0000, 0x11_0000);
    /// assert_eq!(p.vmalloc(1), Line::met(0xffff_ffc0_0000_0000));
    /// ```
    pub fn vmalloc(&mut self, size: u64) -> Line {
        let Parts { words, fields, bits, root, kernel, .. } = self;
        vmalloc(words, fields, bits, *root, kernel, size)
    }

    /// [`vfree`](super::vfree), lent these parts.
    ///
    /// ```
    /// # use gadulnos::raw::*;
    /// # let mut p = Parts::lend(16);
    /// # p.start(0x10_0000, 0x11_0000);
    /// assert_eq!(p.vfree(0), Found::refused(16));
    /// ```
    pub fn vfree(&mut self, addr: u64) -> Found {
        let Parts { words, fields, bits, root, kernel, .. } = self;
        vfree(words, fields, bits, *root, kernel, addr)
    }

    /// `addr` counts if it is `given`.
    ///
    /// ```
    /// # use gadulnos::raw::*;
    /// # let mut p = Parts::lend(16);
    /// # p.start(0x10_0000, 0x11_0000);
    /// assert_eq!(p.mmap(true, 0x1000, 1, 3, 0x10), Line::met(0x1000));
    /// ```
    pub fn mmap(&mut self, given: bool, addr: u64, size: u64, prot: i32, flags: i32) -> Line {
        let Parts { words, fields, bits, root, user, .. } = self;
        mmap(words, fields, bits, *root, user, given, addr, size, prot, flags)
    }

    /// [`munmap`](super::munmap), lent these parts.
    ///
    /// ```
    /// # use gadulnos::raw::*;
    /// # let mut p = Parts::lend(16);
    /// # p.start(0x10_0000, 0x11_0000);
    /// assert_eq!(p.munmap(1, 1), Found::refused(2));
    /// ```
    pub fn munmap(&mut self, addr: u64, size: u64) -> Found {
        let Parts { words, fields, bits, root, user, .. } = self;
        munmap(words, fields, bits, *root, user, addr, size)
    }

    /// [`mprotect`](super::mprotect), lent these parts.
    ///
    /// ```
    /// # use gadulnos::raw::*;
    /// # let mut p = Parts::lend(16);
    /// # p.start(0x10_0000, 0x11_0000);
    /// assert_eq!(p.mprotect(0x1000, 1, 1), Line::refused(16));
    /// ```
    pub fn mprotect(&mut self, addr: u64, size: u64, prot: i32) -> Line {
        let Frames { start_frame, total, levels, .. } = self.frames();
        let Parts { words, root, user, .. } = self;
        mprotect(words, start_frame, total, levels, *root, user, addr, size, prot)
    }

    /// mmap's search by itself, and how many regions it compared, none of a broken list.
    ///
    /// ```
    /// # use gadulnos::raw::*;
    /// # let mut p = Parts::lend(16);
    /// # p.start(0x10_0000, 0x11_0000);
    /// assert_eq!(p.find_free_region(1), (Line::met(0x1000_0000_0000), 0));
    /// ```
    pub fn find_free_region(&self, size: u64) -> (Line, u64) {
        let mut compared = 0;
        let line = find_free_region(&self.user, size, &mut compared);
        (line, compared)
    }

    /// [`mark_cow`](super::mark_cow), lent these parts.
    ///
    /// ```
    /// # use gadulnos::raw::*;
    /// # let mut p = Parts::lend(16);
    /// # p.start(0x10_0000, 0x11_0000);
    /// assert_eq!(p.mark_cow(0x7123), Line::met(0));
    /// ```
    pub fn mark_cow(&mut self, addr: u64) -> Line {
        mark_cow(&mut self.marked, addr)
    }

    /// [`unmark_cow`](super::unmark_cow), lent these parts.
    ///
    /// ```
    /// # use gadulnos::raw::*;
    /// # let mut p = Parts::lend(16);
    /// # p.start(0x10_0000, 0x11_0000);
    /// assert_eq!(p.unmark_cow(0x7123), Line::met(0));
    /// ```
    pub fn unmark_cow(&mut self, addr: u64) -> Line {
        unmark_cow(&mut self.marked, addr)
    }

    /// [`is_cow`](super::is_cow), lent these parts.
    ///
    /// ```
    /// # use gadulnos::raw::*;
    /// # let mut p = Parts::lend(16);
    /// # p.start(0x10_0000, 0x11_0000);
    /// p.mark_cow(0x7123);
    /// assert_eq!(p.is_cow(0x7000), Line::met(1));
    /// ```
    pub fn is_cow(&self, addr: u64) -> Line {
        is_cow(&self.marked, addr)
    }

    /// [`handle_page_fault`](super::handle_page_fault), lent these parts.
    ///
    /// ```
    /// # use gadulnos::raw::*;
    /// # let mut p = Parts::lend(16);
    /// # p.start(0x10_0000, 0x11_0000);
    /// assert_eq!(p.handle_page_fault(0x7000, 6), Found::met(0, 0, 0));
    /// ```
    pub fn handle_page_fault(&mut self, addr: u64, code: u64) -> Found {
        let Parts { words, fields, bits, root, marked, .. } = self;
        handle_page_fault(words, fields, bits, *root, marked, addr, code)
    }

    /// [`handle_page_fault_second`](super::handle_page_fault_second), lent these parts.
    ///
    /// ```
    /// # use gadulnos::raw::*;
    /// # let mut p = Parts::lend(16);
    /// # p.start(0x10_0000, 0x11_0000);
    /// assert_eq!(p.handle_page_fault_second(0x7000, 6), Line::met(0));
    /// ```
    pub fn handle_page_fault_second(&mut self, addr: u64, code: u64) -> Line {
        let Parts { words, fields, bits, root, .. } = self;
        handle_page_fault_second(words, fields, bits, *root, addr, code)
    }
}
