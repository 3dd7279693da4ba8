//! The frame record and its bitmap, and the page tables in the lent frames' words.
//!
//! Levels count from the bottom, 1 the last. The top index is bits 47 to 39 of an address on four levels and bits 56 to 48
//! on five; the bits above are ignored.

use super::{Line, Marks, SHOWN_NUMBERS};

functions! {
    /// A record for the frames of memory `from` to `to`, all free, of four levels.
    ///
    /// ```
    /// # use gadulnos::raw::*;
    /// # let mut p = Parts::lend(16);
    /// # p.start(0x10_0000, 0x11_0000);
    /// assert_eq!(init(&mut p.fields, &mut p.bits, 0x1800, 0x3800), Line::met(0));
    /// assert_eq!(p.frames().total, 2);
    /// ```
    fn init = gadulnos_init(fields: &mut [u8], bits: &mut Marks, from: u64, to: u64) -> Line;
    /// 1 if a frame is marked or not on the board, else 0.
    ///
    /// ```
    /// # use gadulnos::raw::*;
    /// # let mut p = Parts::lend(16);
    /// # p.start(0x10_0000, 0x11_0000);
    /// assert_eq!(is_allocated(&p.fields, &p.bits, 0x100), Line::met(1));
    /// ```
    fn is_allocated = gadulnos_is_allocated(fields: &[u8], bits: &Marks, frame: u64) -> Line;
    /// Marks a frame; one that is not on the board is passed over.
    ///
    /// ```
    /// # use gadulnos::raw::*;
    /// # let mut p = Parts::lend(16);
    /// # p.start(0x10_0000, 0x11_0000);
    /// assert_eq!(mark_allocated(&mut p.fields, &mut p.bits, 0x101), Line::met(0));
    /// assert_eq!(p.frames().allocated, 2);
    /// ```
    fn mark_allocated = gadulnos_mark_allocated(fields: &mut [u8], bits: &mut Marks, frame: u64) -> Line;
    /// The number of the lowest free frame, which is marked.
    ///
    /// ```
    /// # use gadulnos::raw::*;
    /// # let mut p = Parts::lend(16);
    /// # p.start(0x10_0000, 0x11_0000);
    /// assert_eq!(allocate_frame(&mut p.fields, &mut p.bits), Line::met(0x101));
    /// ```
    fn allocate_frame = gadulnos_allocate_frame(fields: &mut [u8], bits: &mut Marks) -> Line;
    /// Frees a frame; its value says what was found of it (`Finding`).
    ///
    /// ```
    /// # use gadulnos::raw::*;
    /// # let mut p = Parts::lend(16);
    /// # p.start(0x10_0000, 0x11_0000);
    /// let line = deallocate_frame(&mut p.fields, &mut p.bits, 0x101);
    /// assert_eq!(line, Line::met(Finding::AlreadyFree as u64));
    /// ```
    fn deallocate_frame = gadulnos_deallocate_frame(fields: &mut [u8], bits: &mut Marks, frame: u64) -> Line;
    /// How many frames are free.
    ///
    /// ```
    /// # use gadulnos::raw::*;
    /// # let mut p = Parts::lend(16);
    /// # p.start(0x10_0000, 0x11_0000);
    /// assert_eq!(free_frames(&p.fields, &p.bits), Line::met(15));
    /// ```
    fn free_frames = gadulnos_free_frames(fields: &[u8], bits: &Marks) -> Line;
    /// How many are marked: the counter.
    ///
    /// ```
    /// # use gadulnos::raw::*;
    /// # let mut p = Parts::lend(16);
    /// # p.start(0x10_0000, 0x11_0000);
    /// assert_eq!(allocated_frames(&p.fields, &p.bits), Line::met(1));
    /// ```
    fn allocated_frames = gadulnos_allocated_frames(fields: &[u8], bits: &Marks) -> Line;
    /// How many there are.
    ///
    /// ```
    /// # use gadulnos::raw::*;
    /// # let mut p = Parts::lend(16);
    /// # p.start(0x10_0000, 0x11_0000);
    /// assert_eq!(total_frames(&p.fields, &p.bits), Line::met(16));
    /// ```
    fn total_frames = gadulnos_total_frames(fields: &[u8], bits: &Marks) -> Line;
}

functions! {
    /// The physical address of `virt`.
    ///
    /// ```
    /// # use gadulnos::raw::*;
    /// # let mut p = Parts::lend(16);
    /// # p.start(0x10_0000, 0x11_0000);
    /// assert_eq!(translate(&p.words, 0x100, 16, 4, p.root, 0), Line::refused(14));
    /// ```
    fn translate = gadulnos_translate(
        words: &[u64], start: u64, total: u64, levels: u64, root: u64, virt: u64
    ) -> Line;
    /// .. with its working, which is written to `out`, whatever the answer; `Shown::unpack` reads it.
    ///
    /// ```
    /// # use gadulnos::raw::*;
    /// # let mut p = Parts::lend(16);
    /// # p.start(0x10_0000, 0x11_0000);
    /// let mut out = [0; SHOWN_NUMBERS];
    /// show_translate(&p.words, 0x100, 16, 4, p.root, 0, &mut out);
    /// assert_eq!(out[..6], [1, 4, 0x100, 0, 0, Verdict::Absent as u64]);
    /// ```
    fn show_translate = gadulnos_show_translate(
        words: &[u64], start: u64, total: u64, levels: u64, root: u64, virt: u64,
        out: &mut [u64; SHOWN_NUMBERS]
    ) -> Line;
    /// Whether user code may read `virt`, or write it: 1 or 0. A translation then ends on the last level, and all
    /// entries that it reads, one on each level, have USER, and for a write WRITABLE too.
    ///
    /// ```
    /// # use gadulnos::raw::*;
    /// # let mut p = Parts::lend(16);
    /// # p.start(0x10_0000, 0x11_0000);
    /// assert_eq!(user_may(&p.words, 0x100, 16, 4, p.root, 0, false), Line::met(0));
    /// ```
    fn user_may = gadulnos_user_may(
        words: &[u64], start: u64, total: u64, levels: u64, root: u64, virt: u64, write: bool
    ) -> Line;
    /// Maps a page to a frame; 11, 12, 19.
    ///
    /// ```
    /// # use gadulnos::raw::*;
    /// # let mut p = Parts::lend(16);
    /// # p.start(0x10_0000, 0x11_0000);
    /// let Parts { words, fields, bits, root, .. } = &mut p;
    /// let line = map_page(words, fields, bits, *root, 0x7000, 0x20_0000, true, true);
    /// assert_eq!(line, Line::met(0));
    /// ```
    fn map_page = gadulnos_map_page(
        words: &mut [u64], fields: &mut [u8], bits: &mut Marks, root: u64,
        virt: u64, phys: u64, writable: bool, user: bool
    ) -> Line;
    /// Maps a huge page, of 1 GiB if `gigabyte`, else of 2 MiB; 4, 11, 12, 19.
    ///
    /// ```
    /// # use gadulnos::raw::*;
    /// # let mut p = Parts::lend(16);
    /// # p.start(0x10_0000, 0x11_0000);
    /// let Parts { words, fields, bits, root, .. } = &mut p;
    /// let line = map_huge_page(words, fields, bits, *root, 0x1000, 0, false, true, true);
    /// assert_eq!(line, Line::refused(4));
    /// ```
    fn map_huge_page = gadulnos_map_huge_page(
        words: &mut [u64], fields: &mut [u8], bits: &mut Marks, root: u64,
        virt: u64, phys: u64, gigabyte: bool, writable: bool, user: bool
    ) -> Line;
    /// The number of the frame that `virt` was mapped to.
    ///
    /// ```
    /// # use gadulnos::raw::*;
    /// # let mut p = Parts::lend(16);
    /// # p.start(0x10_0000, 0x11_0000);
    /// assert_eq!(unmap_page(&mut p.words, 0x100, 16, 4, p.root, 0), Line::refused(14));
    /// ```
    fn unmap_page = gadulnos_unmap_page(
        words: &mut [u64], start: u64, total: u64, levels: u64, root: u64, virt: u64
    ) -> Line;
}
