//! mmap, munmap and mprotect. The list: its number in word 0, next_addr in word 1, then three words a slot:
//! start, size, and prot and flags.

use super::memory::Memory;
use super::packed::{clear, put, shift, word};
use super::protect::protect_pages;
use super::tables::Tables;
use super::{found, is_placed, line, rounded, Answer, Giving, BROKEN, LAST, PAGE};
use gadulnos::raw::{Found, Line, Marks};

const SLOTS: usize = 256;
const BYTES: usize = 16 + 24 * SLOTS;
/// What a search stays below.
const END: u64 = 0x0000_7FFF_FFFF_F000;
const PROT_WRITE: i32 = 2;
const MAP_FIXED: i32 = 0x10;

/// The first word of a slot.
#[inline]
fn at(i: usize) -> usize {
    2 + 3 * i
}

#[inline]
fn start_of(list: &[u8], i: usize) -> u64 {
    word(list, at(i))
}

#[inline]
fn end_of(list: &[u8], i: usize) -> u64 {
    word(list, at(i)) + word(list, at(i) + 1)
}

/// The number of regions, if the list is sound.
#[inline]
fn sound(list: &[u8]) -> Option<usize> {
    if list.len() != BYTES || word(list, 0) > SLOTS as u64 || word(list, 1) % PAGE != 0 {
        return None;
    }
    let n = word(list, 0) as usize;
    let rises = |i| i == 0 || start_of(list, i - 1) < start_of(list, i);
    (0..n).all(|i| rises(i) && is_placed(word(list, at(i)), word(list, at(i) + 1))).then_some(n)
}

/// The first region that a range overlaps.
#[inline]
fn in_the_way(list: &[u8], n: usize, addr: u64, size: u64) -> Option<usize> {
    let overlaps = |i: &usize| addr < end_of(list, *i) && start_of(list, *i) < addr + size;
    (0..n).find(overlaps)
}

/// Where a range is free; beside it the regions compared are counted.
#[inline]
fn search(list: &[u8], n: usize, size: u64, compared: &mut u64) -> Answer {
    let mut addr = word(list, 1);
    while size < END && addr < END - size {
        let met = in_the_way(list, n, addr, size);
        *compared += met.map_or(n, |i| i + 1) as u64;
        match met {
            Some(i) => addr = end_of(list, i),
            None => return Ok(addr),
        }
    }
    Err(15)
}

#[inline(never)]
pub fn find_free_region(list: &[u8], size: u64, compared: &mut u64) -> Line {
    match sound(list) {
        Some(n) => {
            *compared = 0;
            line(search(list, n, size, compared))
        }
        None => Line::refused(BROKEN),
    }
}

/// Where a region goes.
#[inline]
fn choose(list: &[u8], n: usize, wish: Option<u64>, size: u64, fixed: bool) -> Answer {
    match wish {
        Some(addr) if addr % PAGE != 0 && fixed => Err(2),
        Some(addr) if addr % PAGE == 0 && addr > LAST - size => Err(3),
        Some(addr) if fixed => Ok(addr),
        Some(addr) if addr % PAGE == 0 && in_the_way(list, n, addr, size).is_none() => Ok(addr),
        _ => search(list, n, size, &mut 0),
    }
}

/// The slot of a region that starts here, or where it goes.
#[inline]
fn find(list: &[u8], n: usize, addr: u64) -> Result<usize, usize> {
    match (0..n).find(|&i| start_of(list, i) >= addr) {
        Some(i) if start_of(list, i) == addr => Ok(i),
        Some(i) => Err(i),
        None => Err(n),
    }
}

/// What a caller asks of mmap.
struct Asked {
    wish: Option<u64>,
    size: u64,
    prot: i32,
    flags: i32,
}

#[inline(never)]
#[allow(clippy::too_many_arguments)]
pub fn mmap(
    words: &mut [u64],
    fields: &mut [u8],
    bits: &mut Marks,
    root: u64,
    list: &mut [u8],
    given: bool,
    addr: u64,
    size: u64,
    prot: i32,
    flags: i32,
) -> Line {
    let asked = Asked { wish: given.then_some(addr), size, prot, flags };
    match (sound(list), Memory::sound(words, fields, bits, root)) {
        (Some(n), Some(memory)) => line(map(memory, list, n, &asked)),
        _ => Line::refused(BROKEN),
    }
}

#[inline]
fn map(mut memory: Memory, list: &mut [u8], n: usize, asked: &Asked) -> Answer {
    let Asked { wish, prot, flags, .. } = *asked;
    let size = rounded(asked.size)?;
    let addr = choose(list, n, wish, size, flags & MAP_FIXED != 0)?;
    let found = find(list, n, addr);
    if n == SLOTS && found.is_err() {
        return Err(20);
    }
    if let Err((number, done)) = memory.map_pages(addr, size / PAGE, prot & PROT_WRITE != 0, true) {
        if number == 13 {
            for i in 0..done {
                let _ = memory.unmap(addr + i * PAGE);
            }
        }
        return Err(number);
    }
    let i = found.unwrap_or_else(|i| {
        shift(list, at(i), at(n), at(i + 1));
        put(list, 0, n as u64 + 1);
        i
    });
    put(list, at(i), addr);
    put(list, at(i) + 1, size);
    put(list, at(i) + 2, u64::from(prot as u32) | u64::from(flags as u32) << 32);
    put(list, 1, addr + size);
    Ok(addr)
}

#[inline(never)]
pub fn munmap(
    words: &mut [u64],
    fields: &mut [u8],
    bits: &mut Marks,
    root: u64,
    list: &mut [u8],
    addr: u64,
    size: u64,
) -> Found {
    match (sound(list), Memory::sound(words, fields, bits, root)) {
        (Some(n), Some(memory)) => found(unmap(memory, list, n, addr, size)),
        _ => Found::refused(BROKEN),
    }
}

/// The slot of the region that has this start and, rounded, this size, and the size.
#[inline]
fn named(list: &[u8], n: usize, addr: u64, size: u64) -> Result<(usize, u64), u64> {
    if size != 0 && addr % PAGE != 0 {
        return Err(2);
    }
    let size = rounded(size)?;
    let i = find(list, n, addr).map_err(|_| 16u64)?;
    match word(list, at(i) + 1) == size {
        true => Ok((i, size)),
        false => Err(16),
    }
}

#[inline]
fn unmap(mut memory: Memory, list: &mut [u8], n: usize, addr: u64, size: u64) -> Giving {
    let (i, size) = named(list, n, addr, size)?;
    let tally = memory.free_pages(addr, size / PAGE);
    shift(list, at(i + 1), at(n), at(i));
    clear(list, at(n - 1), at(n));
    put(list, 0, n as u64 - 1);
    Ok(tally)
}

#[inline(never)]
#[allow(clippy::too_many_arguments)]
pub fn mprotect(
    words: &mut [u64],
    start: u64,
    total: u64,
    levels: u64,
    root: u64,
    list: &mut [u8],
    addr: u64,
    size: u64,
    prot: i32,
) -> Line {
    let tables = Tables { start, total, levels, root };
    match sound(list) {
        Some(n) if tables.may_walk(words) => {
            line(protect(words, &tables, list, n, addr, size, prot))
        }
        _ => Line::refused(BROKEN),
    }
}

#[inline]
fn protect(
    words: &mut [u64],
    tables: &Tables,
    list: &mut [u8],
    n: usize,
    addr: u64,
    size: u64,
    prot: i32,
) -> Answer {
    let (i, size) = named(list, n, addr, size)?;
    protect_pages(words, tables, addr, size / PAGE, prot & PROT_WRITE != 0);
    let flags = word(list, at(i) + 2) >> 32 << 32;
    put(list, at(i) + 2, flags | u64::from(prot as u32));
    Ok(0)
}
