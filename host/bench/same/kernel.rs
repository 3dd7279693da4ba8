//! vmalloc and vfree. The list: its number in word 0, then three words a slot: start, size, used.

use super::memory::Memory;
use super::packed::{are_zero, clear, put, shift, word};
use super::{found, is_placed, line, rounded, Answer, Giving, BROKEN, PAGE};
use gadulnos::raw::{Found, Line, Marks};

const SLOTS: usize = 256;
const BYTES: usize = 8 + 24 * SLOTS;
const WORDS: usize = BYTES / 8;

/// The first word of a slot.
#[inline]
fn at(i: usize) -> usize {
    1 + 3 * i
}

/// The number of regions, if the list is sound.
#[inline]
fn sound(list: &[u8]) -> Option<usize> {
    if list.len() != BYTES || word(list, 0) > SLOTS as u64 {
        return None;
    }
    let n = word(list, 0) as usize;
    let is_sound =
        |i| is_placed(word(list, at(i)), word(list, at(i) + 1)) && word(list, at(i) + 2) < 2;
    ((0..n).all(is_sound) && are_zero(list, at(n), WORDS)).then_some(n)
}

#[inline(never)]
pub fn vmalloc(
    words: &mut [u64],
    fields: &mut [u8],
    bits: &mut Marks,
    root: u64,
    list: &mut [u8],
    size: u64,
) -> Line {
    match (sound(list), Memory::sound(words, fields, bits, root)) {
        (Some(n), Some(memory)) => line(allocate(memory, list, n, size)),
        _ => Line::refused(BROKEN),
    }
}

#[inline]
fn allocate(mut memory: Memory, list: &mut [u8], n: usize, size: u64) -> Answer {
    let size = rounded(size)?;
    let fits = |i: &usize| word(list, at(*i) + 2) == 0 && word(list, at(*i) + 1) >= size;
    let i = (0..n).find(fits).ok_or(15u64)?;
    let (start, whole) = (word(list, at(i)), word(list, at(i) + 1));
    let mapped = memory.map_pages(start, size / PAGE, true, false);
    if whole > size && n < SLOTS {
        shift(list, at(i + 1), at(n), at(i + 2));
        put(list, at(i + 1), start + size);
        put(list, at(i + 1) + 1, whole - size);
        put(list, at(i + 1) + 2, 0);
        put(list, 0, n as u64 + 1);
    }
    put(list, at(i) + 1, size);
    put(list, at(i) + 2, mapped.is_ok().into());
    mapped.map(|()| start).map_err(|(number, _)| number)
}

#[inline(never)]
pub fn vfree(
    words: &mut [u64],
    fields: &mut [u8],
    bits: &mut Marks,
    root: u64,
    list: &mut [u8],
    addr: u64,
) -> Found {
    match (sound(list), Memory::sound(words, fields, bits, root)) {
        (Some(n), Some(memory)) => found(free(memory, list, n, addr)),
        _ => Found::refused(BROKEN),
    }
}

#[inline]
fn free(mut memory: Memory, list: &mut [u8], n: usize, addr: u64) -> Giving {
    let is_it = |i: &usize| word(list, at(*i)) == addr && word(list, at(*i) + 2) == 1;
    let i = (0..n).find(is_it).filter(|_| addr != 0).ok_or(16u64)?;
    let tally = memory.free_pages(addr, word(list, at(i) + 1) / PAGE);
    put(list, at(i) + 2, 0);
    merge(list, n);
    Ok(tally)
}

/// Joins adjoining free neighbours.
#[inline]
fn merge(list: &mut [u8], mut n: usize) {
    let mut i = 0;
    while i + 1 < n {
        let [start, size, used] = [0, 1, 2].map(|field| word(list, at(i) + field));
        let [next, next_size, next_used] = [0, 1, 2].map(|field| word(list, at(i + 1) + field));
        if used | next_used == 0 && start + size == next {
            put(list, at(i) + 1, size + next_size);
            shift(list, at(i + 2), at(n), at(i + 1));
            n -= 1;
            clear(list, at(n), at(n + 1));
        } else {
            i += 1;
        }
    }
    put(list, 0, n as u64);
}
