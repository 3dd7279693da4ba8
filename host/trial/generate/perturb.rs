//! States that stand beside those that calls lead to: tables that loop or leave the board,
//! entries with other rights, frames freed under a table, lists in any order, with overlaps.

use super::pick::Picker;
use crate::state::{Region, Slot, State, BITMAP_WORDS};
use calls::PAGE;

/// What to set on a board.
#[derive(Clone)]
pub struct Perturbed {
    /// Indices and words; the others stay.
    pub words: Vec<(usize, u64)>,
    pub bitmap: [u64; BITMAP_WORDS],
    pub allocated: u64,
    pub root: u64,
    pub slots: Vec<Slot>,
    pub regions: Vec<Region>,
    pub next_addr: u64,
    pub marked: Vec<u64>,
}

pub fn perturb(p: &mut Picker) -> Perturbed {
    let mut parts = Perturbed {
        words: perturb_words(p),
        bitmap: p.state.bitmap,
        allocated: 0,
        root: p.state.root,
        slots: p.state.vmalloc().to_vec(),
        regions: p.state.regions.clone(),
        next_addr: p.state.next_addr,
        marked: p.state.marked.clone(),
    };
    perturb_frames(p, &mut parts);
    perturb_slots(p, &mut parts.slots);
    perturb_regions(p, &mut parts.regions);
    if p.random.chance(1, 3) {
        parts.next_addr = p.address() & !(PAGE - 1);
    }
    for _ in 0..p.random.below(4) {
        parts.marked.push(p.address() & !(PAGE - 1));
    }
    parts.marked.sort_unstable();
    parts.marked.dedup();
    parts
}

/// New entries, most of them in frames that are marked, pointing mostly to lent frames.
fn perturb_words(p: &mut Picker) -> Vec<(usize, u64)> {
    let mut words = other_rights(p);
    for _ in 0..p.random.below(12) {
        let frame = p.random.below(p.state.allocated.max(1)).min(p.state.total - 1) as usize;
        let low = [0, 0, 1, 511, 32, 256];
        let index = if p.random.chance(2, 3) {
            p.random.one_of(&low)
        } else {
            p.random.below(512) as usize
        };
        let flags = p.random.one_of(&[0, 1, 1, 3, 5, 5, 7, 7, 0x81, 0x87, 0xFF]);
        let top = if p.random.chance(1, 8) { p.random.word() & 0xFFF0_0000_0000_0F00 } else { 0 };
        words.push((frame * 512 + index, p.phys() & 0x000F_FFFF_FFFF_F000 | flags | top));
    }
    words
}

/// Entries on the way to some address, with USER or WRITABLE turned over.
fn other_rights(p: &mut Picker) -> Vec<(usize, u64)> {
    let mut words = Vec::new();
    for _ in 0..p.random.below(8) {
        let addr = p.address();
        let present = present_entries(p.state, addr);
        if !present.is_empty() {
            let (index, word) = p.random.one_of(&present);
            words.push((index, word ^ p.random.one_of(&[2, 2, 4, 6])));
        }
    }
    words
}

/// The present entries on the way to an address, by their words' indices.
fn present_entries(state: &State, addr: u64) -> Vec<(usize, u64)> {
    let mut present = Vec::new();
    let mut table = state.lent(state.root);
    for shift in (12..state.width()).step_by(9).rev() {
        let index = table.map(|table| table * 512 + (addr >> shift) as usize % 512);
        let entry = index.map(|index| (index, state.words[index])).filter(|entry| entry.1 & 1 == 1);
        present.extend(entry);
        table = entry.and_then(|(_, word)| state.lent((word & 0x000F_FFFF_FFFF_F000) / PAGE));
    }
    present
}

/// Other marks, at times a frame free under a table, at times another root. The counter
/// stays right.
fn perturb_frames(p: &mut Picker, parts: &mut Perturbed) {
    for _ in 0..p.random.below(4) {
        let index = p.random.below(p.state.total) as usize;
        let bit = 1 << (index % 64);
        match p.random.chance(1, 5) {
            true => parts.bitmap[index / 64] &= !bit,
            false => parts.bitmap[index / 64] |= bit,
        }
    }
    if p.random.chance(1, 8) {
        parts.root = p.state.start_frame + p.random.below(p.state.total);
    }
    let mut state = p.state.clone();
    state.bitmap = parts.bitmap;
    parts.allocated = state.marked_frames();
}

fn perturb_slots(p: &mut Picker, slots: &mut Vec<Slot>) {
    for _ in 0..p.random.below(3) {
        let (start, size) = range(p);
        let at = p.random.below(slots.len() as u64 + 1) as usize;
        slots.insert(at, Slot { start, size, used: p.random.chance(1, 2) });
    }
    if slots.len() > 1 && p.random.chance(1, 4) {
        let (a, b) = (p.random.below(slots.len() as u64), p.random.below(slots.len() as u64));
        slots.swap(a as usize, b as usize);
    }
    slots.truncate(256);
}

fn perturb_regions(p: &mut Picker, regions: &mut Vec<Region>) {
    for _ in 0..p.random.below(4) {
        let (start, size) = range(p);
        regions.push(Region { start, size, prot: p.signed(), flags: p.signed() });
    }
    regions.sort_by_key(|region| region.start);
    regions.dedup_by_key(|region| region.start);
}

/// An aligned range of a few pages, seldom one that ends too high.
fn range(p: &mut Picker) -> (u64, u64) {
    let start = p.address() & !(PAGE - 1);
    let pages = 1 + p.random.below(6);
    match start.checked_add(pages * PAGE) {
        None if p.random.chance(9, 10) => (0x5000, pages * PAGE),
        _ => (start, pages * PAGE),
    }
}
