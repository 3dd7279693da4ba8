//! Real memory at the board's physical addresses.

use std::ffi::c_void;

const PROT_READ_WRITE: i32 = 3;
/// MAP_PRIVATE, MAP_ANONYMOUS and MAP_FIXED_NOREPLACE.
const ANONYMOUS_HERE: i32 = 0x2 | 0x20 | 0x10_0000;

extern "C" {
    fn mmap(
        addr: *mut c_void,
        length: usize,
        prot: i32,
        flags: i32,
        fd: i32,
        offset: i64,
    ) -> *mut c_void;
    fn munmap(addr: *mut c_void, length: usize) -> i32;
}

/// The lent frames. The memory is given back on drop.
pub struct Lent {
    start: *mut u64,
    words: usize,
}

impl Lent {
    /// Maps zeroed memory at a physical address, a multiple of a page, if nothing of this
    /// process stands there. Address 0 is no pointer in Rust.
    pub fn map(start: u64, bytes: u64) -> Option<Lent> {
        let want = start as *mut c_void;
        if want.is_null() {
            return None;
        }
        // SAFETY: this kind of mapping replaces none that stands.
        let got = unsafe { mmap(want, bytes as usize, PROT_READ_WRITE, ANONYMOUS_HERE, -1, 0) };
        if got as usize == usize::MAX {
            return None;
        }
        let lent = Lent { start: got.cast(), words: bytes as usize / 8 };
        (got == want).then_some(lent)
    }

    pub fn words(&self) -> &[u64] {
        // SAFETY: the mapping lives as long as self, and the original's functions, which
        // write here too, run only on a board borrowed mutably.
        unsafe { std::slice::from_raw_parts(self.start, self.words) }
    }

    pub fn words_mut(&mut self) -> &mut [u64] {
        // SAFETY: as above.
        unsafe { std::slice::from_raw_parts_mut(self.start, self.words) }
    }
}

impl Drop for Lent {
    fn drop(&mut self) {
        // SAFETY: the mapping is ours, and no view of it outlives self.
        unsafe { munmap(self.start.cast(), self.words * 8) };
    }
}
