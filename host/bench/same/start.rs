//! A board's start.

use super::packed::put;
use super::{is_levels, BROKEN, PAGE};
use gadulnos::raw::{Line, Marks, LEVELS};

/// The vmalloc window, and where a fresh search of mmap begins.
const WINDOW: (u64, u64) = (0xFFFF_FFC0_0000_0000, 0xFFFF_FFE0_0000_0000);
const FIRST: u64 = 0x0000_1000_0000_0000;

#[inline(never)]
#[allow(clippy::too_many_arguments)]
pub fn start(
    words: &mut [u64],
    fields: &mut [u8],
    bits: &mut Marks,
    root: &mut u64,
    kernel: &mut [u8],
    user: &mut [u8],
    marked: &mut [u8],
    from: u64,
    to: u64,
) -> Line {
    start_levels(words, fields, bits, root, kernel, user, marked, from, to, LEVELS)
}

#[inline(never)]
#[allow(clippy::too_many_arguments)]
pub fn start_levels(
    words: &mut [u64],
    fields: &mut [u8],
    bits: &mut Marks,
    root: &mut u64,
    kernel: &mut [u8],
    user: &mut [u8],
    marked: &mut [u8],
    from: u64,
    to: u64,
    levels: u64,
) -> Line {
    let lengths = [fields.len(), kernel.len(), user.len(), marked.len()];
    if lengths != [32, 6152, 6160, 2056] || from > to || to > 1 << 52 || !is_levels(levels) {
        return Line::refused(BROKEN);
    }
    let (first, total) = (from / PAGE, ((to - from) / PAGE).min(8192));
    if (words.len() as u64) < total * 512 {
        return Line::refused(BROKEN);
    }
    if total == 0 {
        return Line::refused(11);
    }
    words[..512].fill(0);
    for (k, word) in [first, total, 1, levels].into_iter().enumerate() {
        put(fields, k, word);
    }
    bits.fill(0);
    bits[0] = 1;
    *root = first;
    kernel.fill(0);
    for (k, word) in [1, WINDOW.0, WINDOW.1 - WINDOW.0].into_iter().enumerate() {
        put(kernel, k, word);
    }
    user.fill(0);
    put(user, 1, FIRST);
    marked.fill(0);
    Line::met(0)
}
