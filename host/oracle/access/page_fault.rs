//! Reads and sets the copy-on-write pages.

use super::*;

pub fn reset() {
    *COW_PAGES.lock() = None;
}

pub fn marked() -> alloc::vec::Vec<u64> {
    let pages = COW_PAGES.lock();
    pages.iter().flatten().copied().collect()
}

pub fn set(pages: impl Iterator<Item = u64>) {
    *COW_PAGES.lock() = Some(pages.collect());
}
