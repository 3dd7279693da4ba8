//! Reaches the mapper's private parts.

use super::*;

/// The two statics of `tlb` need no reset: every flush leaves them as it found them.
pub fn reset() {
    *NUMA_NODES.lock() = None;
}

pub fn page_indices(virt: u64) -> [usize; 4] {
    PageMapper::page_indices(VirtAddr::new(virt))
}

/// The word that `set` writes.
pub fn entry_word(phys: u64, writable: bool, user: bool) -> u64 {
    let mut entry = PageTableEntry::new();
    entry.set(PhysAddr::new(phys), writable, user);
    entry.0
}

/// The word that `set_huge` writes.
pub fn huge_entry_word(phys: u64, writable: bool, user: bool) -> u64 {
    let mut entry = PageTableEntry::new();
    entry.set_huge(PhysAddr::new(phys), writable, user);
    entry.0
}

/// An entry holding this word.
pub fn entry(word: u64) -> PageTableEntry {
    PageTableEntry(word)
}

/// The word that `get_entry` finds in a table of these words.
pub fn get_entry(words: &[u64; 512], index: usize) -> Option<u64> {
    let table = PageTable { entries: words.map(PageTableEntry) };
    table.get_entry(index).map(|entry| entry.0)
}
