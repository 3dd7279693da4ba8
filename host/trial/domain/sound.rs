//! Which records document 01 does not answer with 10.

use crate::state::{is_multiple, State, BITMAP_WORDS, SLOTS};
use calls::{LAST, LEVELS, MOST_LEVELS, PAGE};

/// The highest frame number plus one: physical addresses have 52 bits.
const FRAMES_END: u64 = 1 << 40;

/// Whether the parts are large enough to be read at all.
pub fn has_shape(state: &State) -> bool {
    state.total <= BITMAP_WORDS as u64 * 64
        && state.words.len() as u64 >= state.total * 512
        && state.vmalloc_count <= SLOTS
}

/// Whether no part of the record is broken. Slots past the vmalloc count are left out:
/// that they are zero is an addition, and the Rust leaves old regions there.
pub fn is_sound(state: &State) -> bool {
    has_shape(state)
        && state.start_frame.checked_add(state.total).map_or(false, |end| end <= FRAMES_END)
        && (LEVELS..=MOST_LEVELS).contains(&state.levels)
        && state.lent(state.root).is_some()
        && state.allocated == state.marked_frames()
        && state.vmalloc().iter().all(|slot| is_region(slot.start, slot.size))
        && state.regions.len() <= SLOTS
        && state.regions.windows(2).all(|pair| pair[0].start < pair[1].start)
        && state.regions.iter().all(|region| is_region(region.start, region.size))
        && is_multiple(state.next_addr, PAGE)
        && state.marked.len() <= SLOTS
        && state.marked.windows(2).all(|pair| pair[0] < pair[1])
}

/// Aligned, not empty, and ending at or below the last page address.
fn is_region(start: u64, size: u64) -> bool {
    let end = start.checked_add(size);
    let aligned = is_multiple(start, PAGE) && is_multiple(size, PAGE);
    aligned && size > 0 && end.map_or(false, |end| end <= LAST)
}
