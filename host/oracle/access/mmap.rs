//! Reads and sets the mmap regions.

use super::*;

pub fn reset() {
    *MEMORY_MAPPER.lock() = MemoryMapper::new();
}

pub fn next_addr() -> u64 {
    MEMORY_MAPPER.lock().next_addr as u64
}

/// Hands each region to `see` as start, size, prot and flags, rising by start.
pub fn each_region(mut see: impl FnMut(u64, u64, i32, i32)) {
    for (start, region) in MEMORY_MAPPER.lock().regions.iter() {
        see(*start as u64, region.size as u64, region._prot, region._flags);
    }
}

pub fn set(regions: impl Iterator<Item = (u64, u64, i32, i32)>, next_addr: u64) {
    let mut fresh = MemoryMapper::new();
    fresh.next_addr = next_addr as usize;
    for (start, size, prot, flags) in regions {
        let region = MappedRegion {
            _start: start as usize,
            size: size as usize,
            _prot: prot,
            _flags: flags,
        };
        fresh.regions.insert(start as usize, region);
    }
    *MEMORY_MAPPER.lock() = fresh;
}

/// `find_free_region` on the present list.
pub fn find_free_region(size: u64) -> Option<u64> {
    let found = MEMORY_MAPPER.lock().find_free_region(size as usize);
    found.map(|addr| addr as u64)
}
