//! The frame record and its bitmap.

use super::packed::{are_zero, put, word};
use super::{is_levels, line, Answer, Tally, BROKEN};
use gadulnos::raw::{Finding, Line, Marks};

/// A record that was tested.
#[derive(Clone, Copy)]
struct Record {
    start: u64,
    total: u64,
    allocated: u64,
    levels: u64,
}

impl Record {
    #[inline(always)]
    fn read(fields: &[u8], bits: &Marks) -> Option<Record> {
        if fields.len() != 32 {
            return None;
        }
        let [start, total, allocated, levels] = [0, 1, 2, 3].map(|k| word(fields, k));
        let sound = total <= 8192
            && start <= (1 << 40) - total
            && is_levels(levels)
            && allocated == count(bits, total);
        sound.then_some(Record { start, total, allocated, levels })
    }

    /// The place of a lent frame's bit.
    #[inline]
    fn place(&self, frame: u64) -> Option<u64> {
        let i = frame.wrapping_sub(self.start);
        (i < self.total).then_some(i)
    }
}

/// The set bits below total. Frames are taken lowest first: words at the front are full, and nothing
/// is marked behind the first that is not.
#[inline(never)]
fn count(bits: &Marks, total: u64) -> u64 {
    let (whole, rest) = (total as usize / 64, total % 64);
    let ones = |from: usize, end: usize| -> u64 {
        (from..end).map(|k| u64::from(word(bits, k).count_ones())).sum()
    };
    let full = (0..whole).take_while(|&k| word(bits, k) == u64::MAX).count();
    let near = whole.min(full + 1);
    let mixed = match are_zero(bits, near, whole) {
        true => ones(full, near),
        false => ones(full, whole),
    };
    let last = if rest == 0 { 0 } else { word(bits, whole) & ((1 << rest) - 1) };
    64 * full as u64 + mixed + u64::from(last.count_ones())
}

/// The record with the parts that hold it, for calls that change them.
pub struct Frames<'a> {
    fields: &'a mut [u8],
    bits: &'a mut Marks,
    record: Record,
}

impl<'a> Frames<'a> {
    #[inline(always)]
    pub fn sound(fields: &'a mut [u8], bits: &'a mut Marks) -> Option<Frames<'a>> {
        let record = Record::read(fields, bits)?;
        Some(Frames { fields, bits, record })
    }

    #[inline]
    pub fn start(&self) -> u64 {
        self.record.start
    }

    #[inline]
    pub fn total(&self) -> u64 {
        self.record.total
    }

    #[inline]
    pub fn levels(&self) -> u64 {
        self.record.levels
    }

    #[inline]
    fn set_allocated(&mut self, allocated: u64) {
        self.record.allocated = allocated;
        put(self.fields, 2, allocated);
    }

    /// Marks the lowest free frame.
    #[inline]
    pub fn take(&mut self) -> Answer {
        let Record { start, total, allocated, .. } = self.record;
        for k in 0..(total as usize + 63) / 64 {
            let marks = word(self.bits, k);
            if marks != u64::MAX {
                let bit = marks.trailing_ones();
                let i = 64 * k as u64 + u64::from(bit);
                if i >= total {
                    return Err(11);
                }
                put(self.bits, k, marks | 1 << bit);
                self.set_allocated(allocated + 1);
                return Ok(start + i);
            }
        }
        Err(11)
    }

    /// Marks a frame or frees it; only a bit that changes moves the counter. Whether it changed, of a lent frame.
    #[inline]
    fn set(&mut self, frame: u64, marked: bool) -> Option<bool> {
        let i = self.record.place(frame)?;
        let (k, bit) = (i as usize / 64, 1 << (i % 64));
        let marks = word(self.bits, k);
        if (marks & bit != 0) == marked {
            return Some(false);
        }
        put(self.bits, k, marks ^ bit);
        let allocated = self.record.allocated;
        self.set_allocated(if marked { allocated + 1 } else { allocated - 1 });
        Some(true)
    }

    /// What is found of a frame that is freed.
    #[inline]
    fn find(&mut self, frame: u64) -> Finding {
        match self.set(frame, false) {
            Some(true) => Finding::Freed,
            Some(false) => Finding::AlreadyFree,
            None => Finding::NotHere,
        }
    }

    /// Frees a frame, and counts what was found.
    #[inline]
    pub fn free(&mut self, frame: u64, tally: &mut Tally) {
        tally[self.find(frame) as usize] += 1;
    }
}

#[inline(never)]
pub fn allocate_frame(fields: &mut [u8], bits: &mut Marks) -> Line {
    line(Frames::sound(fields, bits).ok_or(BROKEN).and_then(|mut frames| frames.take()))
}

#[inline(never)]
pub fn deallocate_frame(fields: &mut [u8], bits: &mut Marks, frame: u64) -> Line {
    let Some(mut frames) = Frames::sound(fields, bits) else { return Line::refused(BROKEN) };
    Line::met(frames.find(frame) as u64)
}

#[inline(never)]
pub fn mark_allocated(fields: &mut [u8], bits: &mut Marks, frame: u64) -> Line {
    let Some(mut frames) = Frames::sound(fields, bits) else { return Line::refused(BROKEN) };
    frames.set(frame, true);
    Line::met(0)
}

/// A question to a record that is only read.
#[inline]
fn asked(fields: &[u8], bits: &Marks, question: impl FnOnce(Record) -> u64) -> Line {
    Record::read(fields, bits).map_or(Line::refused(BROKEN), |record| Line::met(question(record)))
}

#[inline(never)]
pub fn is_allocated(fields: &[u8], bits: &Marks, frame: u64) -> Line {
    let is_marked = |i: u64| word(bits, i as usize / 64) >> (i % 64) & 1;
    asked(fields, bits, |record| record.place(frame).map_or(1, is_marked))
}

#[inline(never)]
pub fn free_frames(fields: &[u8], bits: &Marks) -> Line {
    asked(fields, bits, |record| record.total - record.allocated)
}

#[inline(never)]
pub fn allocated_frames(fields: &[u8], bits: &Marks) -> Line {
    asked(fields, bits, |record| record.allocated)
}

#[inline(never)]
pub fn total_frames(fields: &[u8], bits: &Marks) -> Line {
    asked(fields, bits, |record| record.total)
}
