//! The original's functions that need no board: rounding, indices, entries and flags.

use super::play::catch;
use crate::{allocator, page_handler, paging};

/// Rounds up to a page, or the panic message.
pub fn align_up(size: u64) -> Result<u64, String> {
    catch(|| allocator::access::page_align_up(size as usize) as u64)
}

/// The four indices of a page address.
pub fn page_indices(virt: u64) -> [usize; 4] {
    paging::access::page_indices(virt)
}

/// The word of an entry.
pub fn entry_word(phys: u64, writable: bool, user: bool) -> u64 {
    paging::access::entry_word(phys, writable, user)
}

/// The word of a huge entry.
pub fn huge_entry_word(phys: u64, writable: bool, user: bool) -> u64 {
    paging::access::huge_entry_word(phys, writable, user)
}

/// An entry taken apart: present, writable, user, huge, and the address.
pub fn entry_parts(word: u64) -> ([bool; 4], u64) {
    let entry = paging::access::entry(word);
    let bits = [entry.is_present(), entry.is_writable(), entry.is_user(), entry.is_huge()];
    (bits, entry.addr().as_u64())
}

/// `PageFlags` from bits and back.
pub fn page_flags(bits: u64) -> u64 {
    page_handler::PageFlags::from_bits(bits).to_bits()
}

/// The word of the second path's entry.
pub fn second_entry_word(phys: u64, flags: u64) -> u64 {
    page_handler::access::entry_word(phys, page_handler::PageFlags::from_bits(flags))
}

/// The second path's entry taken apart: present, the address, and the bits of its flags.
pub fn second_entry_parts(word: u64) -> (bool, u64, u64) {
    let entry = page_handler::access::entry(word);
    (entry.is_present(), entry.physical_address(), entry.flags().to_bits())
}

/// The word at an index of a table of these words: in paging.rs and in page_handler.rs.
pub fn get_entry(words: &[u64; 512], index: usize) -> [Option<u64>; 2] {
    [paging::access::get_entry(words, index), page_handler::access::get_entry(words, index)]
}

/// Whether a table has an entry at this index: in paging.rs and in page_handler.rs.
pub fn has_entry(index: usize) -> [bool; 2] {
    let first = paging::PageTable::new();
    let second = page_handler::PageTable::new();
    [first.get_entry(index).is_some(), second.get_entry(index).is_some()]
}
