//! Reaches the second path's entries.

use super::*;

/// The word that `set` writes.
pub fn entry_word(phys: u64, flags: PageFlags) -> u64 {
    let mut entry = PageTableEntry::new();
    entry.set(phys, flags);
    entry.entry
}

/// An entry holding this word.
pub fn entry(word: u64) -> PageTableEntry {
    PageTableEntry { entry: word }
}

/// The word that `get_entry` finds in a table of these words.
pub fn get_entry(words: &[u64; 512], index: usize) -> Option<u64> {
    let table = PageTable { entries: words.map(entry) };
    table.get_entry(index).map(|entry| entry.entry)
}
