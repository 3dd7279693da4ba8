//! Numbers alone: rounding, entries, flags and indices.

use super::Line;

functions! {
    /// A multiple of a power of two, at or below `addr`.
    ///
    /// ```
    /// assert_eq!(gadulnos::raw::align_down(8191, 4096), 4096);
    /// ```
    fn align_down = gadulnos_align_down(addr: u64, align: u64) -> u64;
    /// .. at or above `addr`; 3 where it passes 64 bits.
    ///
    /// ```
    /// use gadulnos::raw::{align_up, Line};
    ///
    /// assert_eq!(align_up(1, 8), Line::met(8));
    /// assert_eq!(align_up(u64::MAX, 4096), Line::refused(3));
    /// ```
    fn align_up = gadulnos_align_up(addr: u64, align: u64) -> Line;
    /// A size rounded up to a page; 3 above 2^64 - 4096.
    ///
    /// ```
    /// use gadulnos::raw::{page_align_up, Line};
    ///
    /// assert_eq!(page_align_up(4097), Line::met(8192));
    /// ```
    fn page_align_up = gadulnos_page_align_up(size: u64) -> Line;
    /// Whether an address is a multiple of `align`; of 0 only 0 is.
    ///
    /// ```
    /// assert!(gadulnos::raw::is_aligned(8192, 4096));
    /// ```
    fn is_aligned = gadulnos_is_aligned(addr: u64, align: u64) -> bool;
    /// An address's place in its page.
    ///
    /// ```
    /// assert_eq!(gadulnos::raw::page_offset(0x1234), 0x234);
    /// ```
    fn page_offset = gadulnos_page_offset(virt: u64) -> u64;
    /// The number of its page.
    ///
    /// ```
    /// assert_eq!(gadulnos::raw::page_number(0x1234), 1);
    /// ```
    fn page_number = gadulnos_page_number(virt: u64) -> u64;
    /// The zone of a physical address: 0 DMA, 1 normal, 2 high.
    ///
    /// ```
    /// assert_eq!(gadulnos::raw::zone(0x100_0000), 1);
    /// ```
    fn zone = gadulnos_zone(phys: u64) -> u64;
    /// The number of the frame that holds a physical address.
    ///
    /// ```
    /// assert_eq!(gadulnos::raw::containing_address(0x10_1234), 0x101);
    /// ```
    fn containing_address = gadulnos_containing_address(phys: u64) -> u64;
    /// A frame's first address, cut to 64 bits.
    ///
    /// ```
    /// assert_eq!(gadulnos::raw::start_address(0x101), 0x10_1000);
    /// ```
    fn start_address = gadulnos_start_address(frame: u64) -> u64;
    /// The size of a huge page: 1 GiB if `gigabyte`, else 2 MiB.
    ///
    /// ```
    /// assert_eq!(gadulnos::raw::huge_size(false), 0x20_0000);
    /// ```
    fn huge_size = gadulnos_huge_size(gigabyte: bool) -> u64;
    /// .. and its alignment.
    ///
    /// ```
    /// assert_eq!(gadulnos::raw::huge_alignment(true), 0x4000_0000);
    /// ```
    fn huge_alignment = gadulnos_huge_alignment(gigabyte: bool) -> u64;
    /// An entry: the masked address, present, writable or not, the user's or not.
    ///
    /// ```
    /// assert_eq!(gadulnos::raw::entry_set(0x10_1000, true, false), 0x10_1003);
    /// ```
    fn entry_set = gadulnos_entry_set(phys: u64, writable: bool, user: bool) -> u64;
    /// .. with HUGE.
    ///
    /// ```
    /// assert_eq!(gadulnos::raw::entry_set_huge(0x20_0000, true, true), 0x20_0087);
    /// ```
    fn entry_set_huge = gadulnos_entry_set_huge(phys: u64, writable: bool, user: bool) -> u64;
    /// The physical address that an entry names.
    ///
    /// ```
    /// assert_eq!(gadulnos::raw::entry_addr(0x10_1003), 0x10_1000);
    /// ```
    fn entry_addr = gadulnos_entry_addr(entry: u64) -> u64;
    /// Whether it is present.
    ///
    /// ```
    /// assert!(gadulnos::raw::entry_present(1));
    /// ```
    fn entry_present = gadulnos_entry_present(entry: u64) -> bool;
    /// Whether it is writable.
    ///
    /// ```
    /// assert!(gadulnos::raw::entry_writable(2));
    /// ```
    fn entry_writable = gadulnos_entry_writable(entry: u64) -> bool;
    /// Whether it is the user's.
    ///
    /// ```
    /// assert!(gadulnos::raw::entry_user(4));
    /// ```
    fn entry_user = gadulnos_entry_user(entry: u64) -> bool;
    /// Whether it has HUGE.
    ///
    /// ```
    /// assert!(gadulnos::raw::entry_huge(128));
    /// ```
    fn entry_huge = gadulnos_entry_huge(entry: u64) -> bool;
    /// The word of `PageFlags`, its fields in their order.
    ///
    /// ```
    /// let bits = gadulnos::raw::flags_to_bits(
    ///     true, true, false, false, false, false, false, false, false, false,
    /// );
    /// assert_eq!(bits, 3);
    /// ```
    fn flags_to_bits = gadulnos_flags_to_bits(
        present: bool, writable: bool, user: bool, write_through: bool, cache_disabled: bool,
        accessed: bool, dirty: bool, huge: bool, global: bool, no_execute: bool
    ) -> u64;
    /// A word's flags, taken apart and joined again.
    ///
    /// ```
    /// assert_eq!(gadulnos::raw::flags(u64::MAX), 1 << 63 | 0x1ff);
    /// ```
    fn flags = gadulnos_flags(bits: u64) -> u64;
    /// The second fault path's entry, with the flags of a word.
    ///
    /// ```
    /// assert_eq!(gadulnos::raw::handler_entry(0x10_1234, 7), 0x10_1007);
    /// ```
    fn handler_entry = gadulnos_handler_entry(phys: u64, bits: u64) -> u64;
    /// Whether such an entry is present.
    ///
    /// ```
    /// assert!(gadulnos::raw::handler_present(1));
    /// ```
    fn handler_present = gadulnos_handler_present(word: u64) -> bool;
    /// The physical address that it names.
    ///
    /// ```
    /// assert_eq!(gadulnos::raw::handler_addr(0x10_1007), 0x10_1000);
    /// ```
    fn handler_addr = gadulnos_handler_addr(word: u64) -> u64;
    /// Its flags.
    ///
    /// ```
    /// assert_eq!(gadulnos::raw::handler_flags(0x10_1007), 7);
    /// ```
    fn handler_flags = gadulnos_handler_flags(word: u64) -> u64;
    /// The entry at an index of a table; 14 from 512 on.
    ///
    /// ```
    /// use gadulnos::raw::{get_entry, Line};
    ///
    /// assert_eq!(get_entry(&[7; 512], 511), Line::met(7));
    /// assert_eq!(get_entry(&[7; 512], 512), Line::refused(14));
    /// ```
    fn get_entry = gadulnos_get_entry(table: &[u64; 512], index: usize) -> Line;
    /// The indices of a page address on four levels, the top one first.
    ///
    /// ```
    /// let mut indices = [0; 4];
    /// gadulnos::raw::page_indices(0xffff_ffc0_0000_0000, &mut indices);
    /// assert_eq!(indices, [511, 256, 0, 0]);
    /// ```
    fn page_indices = gadulnos_page_indices(virt: u64, out: &mut [usize; 4]) -> ();
    /// Whether an address lies in the kernel (vmalloc) window.
    ///
    /// ```
    /// assert!(gadulnos::raw::is_vmalloc_addr(0xffff_ffc0_0000_0000));
    /// ```
    fn is_vmalloc_addr = gadulnos_is_vmalloc_addr(addr: u64) -> bool;
}
