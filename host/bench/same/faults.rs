//! Marked pages and both fault paths. The marked pages: their number in word 0, then a word a page.

use super::memory::Memory;
use super::packed::{put, shift, word};
use super::tables::entry;
use super::{found, line, Answer, Giving, BROKEN, PAGE};
use gadulnos::raw::{Found, Line, Marks};

const SLOTS: usize = 256;
const BYTES: usize = 8 + 8 * SLOTS;
const TEMPORARY: u64 = 0xFFFF_FFFF_FFFF_0000;
const HEAP: std::ops::Range<u64> = 0xFFFF_FF00_0000_0000..0xFFFF_FF80_0000_0000;
const USER_END: u64 = 1 << 47;

/// The number of marked pages, if their list is sound.
#[inline]
fn sound(marked: &[u8]) -> Option<usize> {
    if marked.len() != BYTES || word(marked, 0) > SLOTS as u64 {
        return None;
    }
    let n = word(marked, 0) as usize;
    (1..n).all(|i| word(marked, i) < word(marked, i + 1)).then_some(n)
}

#[inline]
fn page_of(addr: u64) -> u64 {
    addr & !(PAGE - 1)
}

/// The word of a marked page, or of the place where it goes.
#[inline]
fn find(marked: &[u8], n: usize, page: u64) -> Result<usize, usize> {
    match (1..=n).find(|&k| word(marked, k) >= page) {
        Some(k) if word(marked, k) == page => Ok(k),
        Some(k) => Err(k),
        None => Err(n + 1),
    }
}

#[inline(never)]
pub fn mark_cow(marked: &mut [u8], addr: u64) -> Line {
    let Some(n) = sound(marked) else { return Line::refused(BROKEN) };
    if let Err(k) = find(marked, n, page_of(addr)) {
        if n == SLOTS {
            return Line::refused(20);
        }
        shift(marked, k, n + 1, k + 1);
        put(marked, k, page_of(addr));
        put(marked, 0, n as u64 + 1);
    }
    Line::met(0)
}

#[inline]
fn unmark(marked: &mut [u8], n: usize, k: usize) {
    shift(marked, k + 1, n + 1, k);
    put(marked, n, 0);
    put(marked, 0, n as u64 - 1);
}

#[inline(never)]
pub fn unmark_cow(marked: &mut [u8], addr: u64) -> Line {
    let Some(n) = sound(marked) else { return Line::refused(BROKEN) };
    if let Ok(k) = find(marked, n, page_of(addr)) {
        unmark(marked, n, k);
    }
    Line::met(0)
}

#[inline(never)]
pub fn is_cow(marked: &[u8], addr: u64) -> Line {
    let Some(n) = sound(marked) else { return Line::refused(BROKEN) };
    Line::met(find(marked, n, page_of(addr)).is_ok().into())
}

/// An error code's bits: present, write, user, reserved, fetch.
#[inline]
fn bits_of(code: u64) -> [bool; 5] {
    [1, 2, 4, 8, 16].map(|bit| code & bit != 0)
}

#[inline(never)]
pub fn handle_page_fault(
    words: &mut [u64],
    fields: &mut [u8],
    bits: &mut Marks,
    root: u64,
    marked: &mut [u8],
    addr: u64,
    code: u64,
) -> Found {
    match (sound(marked), Memory::sound(words, fields, bits, root)) {
        (Some(n), Some(memory)) => found(first_path(memory, marked, n, page_of(addr), code)),
        _ => Found::refused(BROKEN),
    }
}

#[inline]
fn first_path(mut memory: Memory, marked: &mut [u8], n: usize, page: u64, code: u64) -> Giving {
    let [present, write, user, reserved, fetch] = bits_of(code);
    if reserved {
        return Err(5);
    }
    if !present {
        let in_heap = HEAP.contains(&page);
        if page >= USER_END && !in_heap {
            return Err(6);
        }
        if in_heap && fetch {
            return Err(7);
        }
        let frame = memory.frames.take()?;
        memory.map(page, 1, user, entry(frame * PAGE, write, user)).map_err(|_| 18u64)?;
        return Ok([0; 3]);
    }
    if !write {
        return Err(if fetch { 7 } else { 8 });
    }
    let k = find(marked, n, page).map_err(|_| 17u64)?;
    let tally = copy(&mut memory, page, user)?;
    unmark(marked, n, k);
    Ok(tally)
}

/// A frame of its own for a page, with its words, by way of the temporary page: what was found of the old one.
#[inline]
fn copy(memory: &mut Memory, page: u64, user: bool) -> Giving {
    let frame = memory.frames.take()?;
    // Where a translation would find nothing there is nothing to unmap either.
    let _ = memory.unmap(TEMPORARY);
    let temporary = entry(frame * PAGE, true, false);
    memory.map(TEMPORARY, 1, false, temporary).map_err(|_| 18u64)?;
    let phys = memory.tables.translate(memory.words, page).ok();
    let source = phys.and_then(|phys| memory.tables.place(phys / PAGE));
    if let (Some(source), Some(target)) = (source, memory.tables.place(frame)) {
        memory.words.copy_within(source..source + 512, target);
    }
    let _ = memory.unmap(TEMPORARY);
    source.ok_or(18u64)?;
    let mut tally = [0; 3];
    if let Ok(old) = memory.unmap(page) {
        memory.frames.free(old, &mut tally);
    }
    memory.map(page, 1, user, entry(frame * PAGE, true, user)).map_err(|_| 18u64)?;
    Ok(tally)
}

#[inline(never)]
pub fn handle_page_fault_second(
    words: &mut [u64],
    fields: &mut [u8],
    bits: &mut Marks,
    root: u64,
    addr: u64,
    code: u64,
) -> Line {
    match Memory::sound(words, fields, bits, root) {
        Some(memory) => line(second_path(memory, page_of(addr), code)),
        None => Line::refused(BROKEN),
    }
}

#[inline]
fn second_path(mut memory: Memory, page: u64, code: u64) -> Answer {
    let [present, write, user, reserved, fetch] = bits_of(code);
    match (reserved, present) {
        (true, _) => return Err(5),
        (false, true) if write => return Err(17),
        (false, true) => return Err(if fetch { 7 } else { 8 }),
        (false, false) => (),
    }
    let frame = memory.frames.take()?;
    let at = memory.enter(page, 1, user)?;
    memory.words[at] = entry(frame * PAGE, write, user);
    memory.zero(frame);
    Ok(0)
}
