//! The port's calls as one would write them in Rust: on the same packed parts, with the same tests for
//! 10, the same numbers and the same leftovers. Each has the arguments of the C function that it stands
//! beside, so that `sides.rs` calls both by one text, and `agree.rs` plays both on any parts.
//!
//! Plain Rust: the lists and the bitmap are read and written where they lie, and nothing is kept from
//! one call to the next. The count takes full words at the front and clear ones behind at once, as the
//! port's does. One thing that the port does is left out: it remembers tables that it emptied, which
//! bounds the time of a release where tables are shared, and no row has such.
//!
//! What is `inline(always)` makes a record of parts that were tested: handed back from a call it would be
//! copied, which takes longer than the tests. A call itself, the count and the making of a table stand
//! by themselves.

mod faults;
mod frames;
mod kernel;
mod memory;
mod packed;
mod protect;
mod start;
mod tables;
mod user;
mod working;

pub use faults::{handle_page_fault, handle_page_fault_second, is_cow, mark_cow, unmark_cow};
pub use frames::{
    allocate_frame, allocated_frames, deallocate_frame, free_frames, is_allocated, mark_allocated,
    total_frames,
};
pub use kernel::{vfree, vmalloc};
pub use start::{start, start_levels};
pub use tables::{map_huge_page, map_page, translate, unmap_page, user_may};
pub use user::{find_free_region, mmap, mprotect, munmap};
pub use working::show_translate;

use gadulnos::raw::{Found, Line, LEVELS, MOST_LEVELS};

/// A value, or one of document 01's numbers.
type Answer = Result<u64, u64>;

/// How many frames were freed, were free already, and are not on the board.
type Tally = [u64; 3];

/// .. of a met call, or one of document 01's numbers.
type Giving = Result<Tally, u64>;

const BROKEN: u64 = 10;
const PAGE: u64 = 4096;
/// The last page: no region ends above it.
const LAST: u64 = u64::MAX - 4095;

#[inline]
fn line(answer: Answer) -> Line {
    answer.map_or_else(Line::refused, Line::met)
}

#[inline]
fn found(giving: Giving) -> Found {
    giving.map_or_else(Found::refused, |[freed, already_free, not_here]| {
        Found::met(freed, already_free, not_here)
    })
}

/// Whether a board may have so many levels.
#[inline]
fn is_levels(levels: u64) -> bool {
    (LEVELS..=MOST_LEVELS).contains(&levels)
}

/// A size in whole pages.
#[inline]
fn rounded(size: u64) -> Answer {
    match size {
        0 => Err(1),
        _ if size > LAST => Err(3),
        _ => Ok((size + (PAGE - 1)) & !(PAGE - 1)),
    }
}

/// Whether a region is aligned, not empty, and ends at or below the last page.
#[inline]
fn is_placed(start: u64, size: u64) -> bool {
    (start | size) % PAGE == 0 && size != 0 && start <= LAST && size <= LAST - start
}
