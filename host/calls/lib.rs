//! The calls of an examination paper, apart from any implementation: as values, as bytes of a tape, and as text.

mod call;
mod random;
pub mod tape;
pub mod text;

pub use call::{user, writable, Call, Shape};
pub use random::Random;
pub use text::{Mistake, Paper, Setting};

/// A page and a frame, in bytes.
pub const PAGE: u64 = 4096;

/// The highest page address, and the largest size that can be rounded up to a page.
pub const LAST: u64 = u64::MAX - 4095;

/// The levels of page tables of the Rust, and the most that a board may have. They count
/// from the bottom, 1 the last.
pub const LEVELS: u64 = 4;
pub const MOST_LEVELS: u64 = 5;

/// The page through which the first fault path copies.
pub const TEMPORARY: u64 = 0xFFFF_FFFF_FFFF_0000;

/// The kernel window, in which vmalloc works: start and end.
pub const KERNEL_WINDOW: (u64, u64) = (0xFFFF_FFC0_0000_0000, 0xFFFF_FFE0_0000_0000);

/// The user window: where a fresh search of mmap starts, and what it stays below.
pub const USER_WINDOW: (u64, u64) = (0x0000_1000_0000_0000, 0x0000_7FFF_FFFF_F000);
