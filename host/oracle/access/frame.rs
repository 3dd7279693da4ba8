//! Reads and sets the frame allocator's record.

use super::*;

/// The number of words in the bitmap.
pub const BITMAP_WORDS: usize = MAX_FRAMES / 64;

pub struct Record {
    pub start_frame: u64,
    pub total: u64,
    pub allocated: u64,
    pub bitmap: [u64; BITMAP_WORDS],
}

pub fn reset() {
    *FRAME_ALLOCATOR.lock() = FrameAllocator::new();
}

pub fn init(memory_start: u64, memory_end: u64) {
    FRAME_ALLOCATOR.lock().init(memory_start, memory_end);
}

pub fn frame(number: u64) -> Frame {
    Frame { number }
}

pub fn is_allocated(number: u64) -> bool {
    FRAME_ALLOCATOR.lock().is_allocated(number)
}

pub fn mark_allocated(number: u64) {
    FRAME_ALLOCATOR.lock().mark_allocated(number);
}

pub fn record() -> Record {
    read(&FRAME_ALLOCATOR.lock())
}

/// The record of an allocator other than the board's.
pub fn read(allocator: &FrameAllocator) -> Record {
    Record {
        start_frame: allocator.start_frame,
        total: allocator.total_frames,
        allocated: allocator.allocated_frames,
        bitmap: allocator.bitmap,
    }
}

/// An allocator with this record.
pub fn of(record: &Record) -> FrameAllocator {
    FrameAllocator {
        bitmap: record.bitmap,
        start_frame: record.start_frame,
        total_frames: record.total,
        allocated_frames: record.allocated,
    }
}

pub fn set(bitmap: &[u64; BITMAP_WORDS], allocated: u64) {
    let mut allocator = FRAME_ALLOCATOR.lock();
    allocator.bitmap = *bitmap;
    allocator.allocated_frames = allocated;
}
