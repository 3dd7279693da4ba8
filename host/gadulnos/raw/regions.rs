//! Regions, faults, and the start.

use super::{Found, Line, Marks};

functions! {
    /// The new region's address.
    ///
    /// ```
    /// # use gadulnos::raw::*;
    /// # let mut p = Parts::lend(16);
    /// # p.start(0x10_0000, 0x11_0000);
    /// let Parts { words, fields, bits, root, kernel, .. } = &mut p;
    /// let line = vmalloc(words, fields, bits, *root, kernel, 1);
    /// assert_eq!(line, Line::met(0xffff_ffc0_0000_0000));
    /// ```
    fn vmalloc = gadulnos_vmalloc(
        words: &mut [u64], fields: &mut [u8], bits: &mut Marks, root: u64, kernel: &mut [u8], size: u64
    ) -> Line;
    /// What was found of the frames of the region's pages.
    ///
    /// ```
    /// # use gadulnos::raw::*;
    /// # let mut p = Parts::lend(16);
    /// # p.start(0x10_0000, 0x11_0000);
    /// let Parts { words, fields, bits, root, kernel, .. } = &mut p;
    /// let found = vfree(words, fields, bits, *root, kernel, 0x1000);
    /// assert_eq!(found, Found::refused(16));
    /// ```
    fn vfree = gadulnos_vfree(
        words: &mut [u64], fields: &mut [u8], bits: &mut Marks, root: u64, kernel: &mut [u8], addr: u64
    ) -> Found;
    /// The new region's address. `addr` counts if it is `given`.
    ///
    /// ```
    /// # use gadulnos::raw::*;
    /// # let mut p = Parts::lend(16);
    /// # p.start(0x10_0000, 0x11_0000);
    /// let Parts { words, fields, bits, root, user, .. } = &mut p;
    /// let line = mmap(words, fields, bits, *root, user, false, 0, 5000, 3, 0x22);
    /// assert_eq!(line, Line::met(0x1000_0000_0000));
    /// ```
    fn mmap = gadulnos_mmap(
        words: &mut [u64], fields: &mut [u8], bits: &mut Marks, root: u64, user: &mut [u8],
        given: bool, addr: u64, size: u64, prot: i32, flags: i32
    ) -> Line;
    /// What was found of the frames of the region's pages.
    ///
    /// ```
    /// # use gadulnos::raw::*;
    /// # let mut p = Parts::lend(16);
    /// # p.start(0x10_0000, 0x11_0000);
    /// let Parts { words, fields, bits, root, user, .. } = &mut p;
    /// let found = munmap(words, fields, bits, *root, user, 0x1000, 0);
    /// assert_eq!(found, Found::refused(1));
    /// ```
    fn munmap = gadulnos_munmap(
        words: &mut [u64], fields: &mut [u8], bits: &mut Marks, root: u64, user: &mut [u8], addr: u64, size: u64
    ) -> Found;
    /// Another protection for a region: WRITABLE follows PROT_WRITE on each of its pages that `unmap_page` would
    /// find, and `prot` is stored. Lent as the walks are, with the list.
    ///
    /// ```
    /// # use gadulnos::raw::*;
    /// # let mut p = Parts::lend(16);
    /// # p.start(0x10_0000, 0x11_0000);
    /// let Parts { words, root, user, .. } = &mut p;
    /// let line = mprotect(words, 0x100, 16, 4, *root, user, 0x1000, 4096, 1);
    /// assert_eq!(line, Line::refused(16));
    /// ```
    fn mprotect = gadulnos_mprotect(
        words: &mut [u64], start: u64, total: u64, levels: u64, root: u64, user: &mut [u8],
        addr: u64, size: u64, prot: i32
    ) -> Line;
    /// mmap's search by itself: where `size` bytes, not rounded, are free. How many regions it compared is
    /// written to `compared`, with 15 too; 10 leaves it as it was.
    ///
    /// ```
    /// # use gadulnos::raw::*;
    /// # let mut p = Parts::lend(16);
    /// # p.start(0x10_0000, 0x11_0000);
    /// let mut compared = 7;
    /// let line = find_free_region(&p.user, 1, &mut compared);
    /// assert_eq!((line, compared), (Line::met(0x1000_0000_0000), 0));
    /// ```
    fn find_free_region = gadulnos_find_free_region(user: &[u8], size: u64, compared: &mut u64) -> Line;
    /// Marks the page of `addr` copy-on-write; 20 if 256 other pages are marked.
    ///
    /// ```
    /// # use gadulnos::raw::*;
    /// # let mut p = Parts::lend(16);
    /// # p.start(0x10_0000, 0x11_0000);
    /// assert_eq!(mark_cow(&mut p.marked, 0x7123), Line::met(0));
    /// ```
    fn mark_cow = gadulnos_mark_cow(marked: &mut [u8], addr: u64) -> Line;
    /// Takes that mark away.
    ///
    /// ```
    /// # use gadulnos::raw::*;
    /// # let mut p = Parts::lend(16);
    /// # p.start(0x10_0000, 0x11_0000);
    /// assert_eq!(unmark_cow(&mut p.marked, 0x7123), Line::met(0));
    /// ```
    fn unmark_cow = gadulnos_unmark_cow(marked: &mut [u8], addr: u64) -> Line;
    /// Whether the page of `addr` is marked copy-on-write: 1 or 0.
    ///
    /// ```
    /// # use gadulnos::raw::*;
    /// # let mut p = Parts::lend(16);
    /// # p.start(0x10_0000, 0x11_0000);
    /// assert_eq!(is_cow(&p.marked, 0x7123), Line::met(0));
    /// ```
    fn is_cow = gadulnos_is_cow(marked: &[u8], addr: u64) -> Line;
    /// The first fault path (page_fault.rs): of a copy what was found of the page's old frame, none where the
    /// remapping unmapped no page; of a demand page none.
    ///
    /// ```
    /// # use gadulnos::raw::*;
    /// # let mut p = Parts::lend(16);
    /// # p.start(0x10_0000, 0x11_0000);
    /// let Parts { words, fields, bits, root, marked, .. } = &mut p;
    /// let found = handle_page_fault(words, fields, bits, *root, marked, 0x7000, 6);
    /// assert_eq!(found, Found::met(0, 0, 0));
    /// ```
    fn handle_page_fault = gadulnos_handle_page_fault(
        words: &mut [u64], fields: &mut [u8], bits: &mut Marks, root: u64, marked: &mut [u8], addr: u64, code: u64
    ) -> Found;
    /// The second fault path (page_handler.rs).
    ///
    /// ```
    /// # use gadulnos::raw::*;
    /// # let mut p = Parts::lend(16);
    /// # p.start(0x10_0000, 0x11_0000);
    /// let Parts { words, fields, bits, root, .. } = &mut p;
    /// let line = handle_page_fault_second(words, fields, bits, *root, 0x7000, 8);
    /// assert_eq!(line, Line::refused(5));
    /// ```
    fn handle_page_fault_second = gadulnos_handle_page_fault_second(
        words: &mut [u64], fields: &mut [u8], bits: &mut Marks, root: u64, addr: u64, code: u64
    ) -> Line;
    /// A fresh board of four levels on memory `from` to `to`, whatever its parts held before.
    ///
    /// ```
    /// # use gadulnos::raw::*;
    /// # let mut p = Parts::lend(16);
    /// let Parts { words, fields, bits, root, kernel, user, marked } = &mut p;
    /// let (from, to) = (0x10_0000, 0x11_0000);
    /// let line = start(words, fields, bits, root, kernel, user, marked, from, to);
    /// assert_eq!((line, *root), (Line::met(0), 0x100));
    /// ```
    fn start = gadulnos_start(
        words: &mut [u64], fields: &mut [u8], bits: &mut Marks, root: &mut u64,
        kernel: &mut [u8], user: &mut [u8], marked: &mut [u8], from: u64, to: u64
    ) -> Line;
    /// .. of so many levels of page tables, 4 or 5.
    ///
    /// ```
    /// # use gadulnos::raw::*;
    /// # let mut p = Parts::lend(16);
    /// let Parts { words, fields, bits, root, kernel, user, marked } = &mut p;
    /// let (from, to) = (0x10_0000, 0x11_0000);
    /// let line = start_levels(words, fields, bits, root, kernel, user, marked, from, to, 6);
    /// assert_eq!(line, Line::refused(10));
    /// ```
    fn start_levels = gadulnos_start_levels(
        words: &mut [u64], fields: &mut [u8], bits: &mut Marks, root: &mut u64,
        kernel: &mut [u8], user: &mut [u8], marked: &mut [u8], from: u64, to: u64, levels: u64
    ) -> Line;
}
