//! Reaches the rounding.

pub fn align_up(addr: usize, align: usize) -> usize {
    super::align_up(addr, align)
}

/// `align_up` to a page.
pub fn page_align_up(size: usize) -> usize {
    align_up(size, 4096)
}
