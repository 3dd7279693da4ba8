//! Reads and sets the list of vmalloc regions.

use super::*;

/// The number of slots.
pub const SLOTS: usize = MAX_VM_REGIONS;

pub fn reset() {
    *VM_ALLOCATOR.lock() = VMAllocator::new();
}

pub fn count() -> usize {
    VM_ALLOCATOR.lock().region_count
}

/// Hands each slot to `see` as start, size and used, those past the count too.
pub fn each_slot(mut see: impl FnMut(usize, u64, u64, bool)) {
    for (i, slot) in VM_ALLOCATOR.lock().regions.iter().enumerate() {
        see(i, slot.start as u64, slot.size as u64, slot.used);
    }
}

/// Fills the list from the front. Slots past the last are zero.
pub fn set(slots: impl ExactSizeIterator<Item = (u64, u64, bool)>) {
    let mut fresh = VMAllocator::new();
    fresh.region_count = slots.len();
    for (i, (start, size, used)) in slots.enumerate() {
        fresh.regions[i] = VMRegion { start: start as usize, size: size as usize, used };
    }
    *VM_ALLOCATOR.lock() = fresh;
}
