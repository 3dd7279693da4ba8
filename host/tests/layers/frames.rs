//! The frame allocator, beside the original's own struct, on records of any number of frames anywhere
//! below 2^52. The levels, which the original has not, stay but for `init`, and other numbers of them are
//! refused.

use crate::guard::Against;
use crate::options::Options;
use crate::port;
use crate::report::{equal_at, holds, Checked, Report};
use calls::{Call, PAGE};
use gadulnos::raw::{
    Bitmap, Finding, Frames, Line, Parts, TallyNumbers, Told, LEVELS, MOST_LEVELS, NONE,
};
use rinux::frame::access;
use rinux::frame::FrameAllocator;
use trial::generate::Random;
use trial::minimise;
use trial::state::bit;

/// Frames end at most at this number: addresses have 52 bits.
const FRAMES_END: u64 = 1 << 40;

/// Document 01's sizes at which something changes, in frames.
const SIZES: [u64; 14] = [0, 1, 2, 63, 64, 65, 127, 128, 1000, 8127, 8128, 8191, 8192, 8193];

pub fn check(report: &mut Report, options: &Options) {
    report.tell("frames: calls after init", after_init(options));
    report.tell("frames: calls on any record that is not broken", after_set(options));
    report.tell("frames: calls on records of other levels", other_levels(options));
}

/// What a sequence starts from: any record, and the ends of an init if there is one.
struct Start {
    bitmap: Bitmap,
    frames: Frames,
    init: Option<(u64, u64)>,
}

fn after_init(options: &Options) -> Checked {
    let mut random = options.random(20);
    let (mut cases, mut found) = (0, NONE);
    for i in 0..options.amount {
        let size = SIZES[i as usize % SIZES.len()];
        let first = first_frame(&mut random, size);
        let end = FRAMES_END * PAGE;
        let from = (first * PAGE + random.one_of(&[0, 0, 1, PAGE / 2, PAGE - 1])).min(end);
        let to = (from + size * PAGE + random.one_of(&[0, 0, 1, PAGE - 1])).min(end);
        let (bitmap, frames) = any_record(&mut random);
        let start = Start { bitmap, frames, init: Some((from, to)) };
        cases += sequence(&mut random, first, size, &start, &mut found)?;
    }
    often(found, options)?;
    Ok(cases)
}

fn after_set(options: &Options) -> Checked {
    let mut random = options.random(21);
    let (mut cases, mut found) = (0, NONE);
    for i in 0..options.amount {
        let size = SIZES[i as usize % SIZES.len()].min(8192);
        let first = first_frame(&mut random, size);
        let (bitmap, allocated) = any_bitmap(&mut random, size);
        let levels = random.one_of(&[LEVELS, MOST_LEVELS]);
        let frames = Frames { start_frame: first, total: size, allocated, levels };
        let start = Start { bitmap, frames, init: None };
        cases += sequence(&mut random, first, size, &start, &mut found)?;
    }
    often(found, options)?;
    Ok(cases)
}

/// That frames were found freed, free already and off the board as often as there are sequences.
fn often(found: TallyNumbers, options: &Options) -> Result<(), String> {
    println!("  deallocate_frame: freed, already free, not on this board: {found:?}");
    let many = found.iter().all(|times| *times >= options.amount);
    holds(many, &format!("each {} times, not {found:?}", options.amount))
}

/// Every call answers 10 and changes nothing where the levels are neither 4 nor 5.
fn other_levels(options: &Options) -> Checked {
    let mut random = options.random(22);
    let mut cases = 0;
    let bits = (3..64).map(|bit| LEVELS | 1 << bit);
    for levels in (0..LEVELS).chain(MOST_LEVELS + 1..20).chain(bits).chain([u64::MAX]) {
        let size = random.one_of(&SIZES).min(8192);
        let first = first_frame(&mut random, size);
        let (bitmap, allocated) = any_bitmap(&mut random, size);
        let frames = Frames { start_frame: first, total: size, allocated, levels };
        let mut ours = lent(&frames, &bitmap, Against::Behind);
        for call in draw_calls(&mut random, first, size) {
            equal_at((levels, call), port::play(&mut ours, &call), Told::refused(10))?;
            equal_at((levels, call), port::counts(&ours), [Line::refused(10); 3])?;
            cases += 1;
        }
        equal_at(levels, ours.frames(), frames)?;
        equal_at(levels, gadulnos::raw::unpack_bitmap(&ours.bits), bitmap)?;
    }
    Ok(cases)
}

/// A record between guards.
fn lent(frames: &Frames, bitmap: &Bitmap, against: Against) -> port::Port {
    let (fields, bits) = (frames.pack(), Box::new(gadulnos::raw::pack_bitmap(bitmap)));
    port::guarded(&Parts { fields, bits, ..Parts::lend(0) }, against)
}

/// The number of a board's first frame: low, above 2^47 / 4096, or as high as it goes.
fn first_frame(random: &mut Random, size: u64) -> u64 {
    let highest = FRAMES_END - size;
    let any = random.below(highest);
    random.one_of(&[0, 1, 0x100, 0xFFFF, 1 << 35, (1 << 35) + 12345, highest, highest - 1, any])
}

/// Draws calls and plays them on both; prints the shortest that differ. What was found of frames is counted.
fn sequence(
    random: &mut Random,
    first: u64,
    size: u64,
    start: &Start,
    found: &mut TallyNumbers,
) -> Checked {
    let calls = draw_calls(random, first, size);
    let against = random.one_of(&[Against::Before, Against::Behind]);
    play(start, against, &calls, found).map_err(|why| {
        let differs = &mut |calls: &[Call]| play(start, against, calls, &mut NONE.clone()).is_err();
        minimise::print_shortest(&calls, differs);
        format!("{size} frames from {first:x}: {why}")
    })?;
    Ok(calls.len() as u64)
}

/// Calls of all kinds, at times many allocations in a row, until none is left.
fn draw_calls(random: &mut Random, first: u64, size: u64) -> Vec<Call> {
    let mut calls = Vec::new();
    for _ in 0..30 + random.below(60) {
        let frame = draw_frame(random, first, size);
        calls.push(match random.below(9) {
            0 | 1 => Call::AllocateFrame,
            2 | 3 => Call::MarkAllocated { frame },
            4 | 5 => Call::DeallocateFrame { frame },
            6 | 7 => Call::IsAllocated { frame },
            _ => Call::Counts,
        });
        if random.chance(1, 40) {
            calls.extend(vec![Call::AllocateFrame; random.below(size.min(300) + 3) as usize]);
        }
    }
    calls
}

fn draw_frame(random: &mut Random, first: u64, size: u64) -> u64 {
    let inside = first + random.below(size.min(8192));
    let low = first + random.below(size.min(70));
    let end = first + size;
    let edge = [first.wrapping_sub(1), first, end.wrapping_sub(1), end, end + 1, first + 8192];
    match random.below(8) {
        0..=3 => inside,
        4 | 5 => low,
        6 => random.one_of(&edge),
        _ => random.word() | random.one_of(&[0, 1 << 63, u64::MAX]),
    }
}

/// Plays calls on both, and compares answers, bitmap words and records after each.
fn play(
    start: &Start,
    against: Against,
    calls: &[Call],
    found: &mut TallyNumbers,
) -> Result<(), String> {
    let Start { bitmap, frames, init } = *start;
    let Frames { start_frame, total, allocated, mut levels } = frames;
    let mut rust = access::of(&access::Record { start_frame, total, allocated, bitmap });
    let mut ours = lent(&frames, &bitmap, against);
    if let Some((from, to)) = init {
        rust.init(from, to);
        equal_at((from, to), ours.init(from, to), Line::met(0))?;
        levels = LEVELS;
    }
    compare(&ours, &rust, levels)?;
    for call in calls {
        let wanted = play_rust(&mut rust, call);
        equal_at(call, port::play(&mut ours, call), wanted.into())?;
        if let Call::DeallocateFrame { .. } = call {
            found[wanted.value as usize] += 1;
        }
        if *call == Call::Counts {
            let counts = [rust.free_frames(), rust.allocated_frames(), rust.total_frames()];
            equal_at(call, port::counts(&ours), counts.map(Line::met))?;
        }
        compare(&ours, &rust, levels).map_err(|why| format!("after {call}: {why}"))?;
    }
    Ok(())
}

fn play_rust(rust: &mut FrameAllocator, call: &Call) -> Line {
    match *call {
        Call::AllocateFrame => match rust.allocate_frame() {
            Some(frame) => return Line::met(frame.number()),
            None => return Line::refused(11),
        },
        Call::DeallocateFrame { frame } => return Line::met(free_rust(rust, frame) as u64),
        Call::MarkAllocated { frame } => rust.mark_allocated(frame),
        Call::IsAllocated { frame } => return Line::met(rust.is_allocated(frame).into()),
        Call::Counts => return Line::met(rust.allocated_frames()),
        _ => unreachable!("{call} is no call on frames"),
    }
    Line::met(0)
}

/// Frees a frame, which the Rust says nothing of: what was found of it, by the Rust's record before and after.
fn free_rust(rust: &mut FrameAllocator, frame: u64) -> Finding {
    let before = access::read(rust);
    rust.deallocate_frame(access::frame(frame));
    let after = access::read(rust);
    let index = frame.wrapping_sub(before.start_frame);
    match before.bitmap != after.bitmap {
        true => Finding::Freed,
        false if index < before.total => Finding::AlreadyFree,
        false => Finding::NotHere,
    }
}

fn compare(ours: &port::Port, rust: &FrameAllocator, levels: u64) -> Result<(), String> {
    let record = access::read(rust);
    let (start_frame, total, allocated) = (record.start_frame, record.total, record.allocated);
    let frames = Frames { start_frame, total, allocated, levels };
    equal_at("the record", ours.frames(), frames)?;
    equal_at("the bitmap", gadulnos::raw::unpack_bitmap(&ours.bits), record.bitmap)
}

/// Any marks, also past the board's frames, and how many of these they mark.
fn any_bitmap(random: &mut Random, total: u64) -> (Bitmap, u64) {
    let kind = random.below(6);
    let bitmap: Bitmap = std::array::from_fn(|_| match kind {
        0 => 0,
        1 => u64::MAX,
        2 => u64::MAX << random.below(64),
        3 => !(1 << random.below(64)),
        4 => random.word() | random.word(),
        _ => random.word(),
    });
    let marked = (0..total as usize).filter(|&index| bit(&bitmap, index)).count();
    (bitmap, marked as u64)
}

/// Any record at all, most of them broken.
fn any_record(random: &mut Random) -> (Bitmap, Frames) {
    let (bitmap, set) = any_bitmap(random, 8192);
    let any = [random.word(), random.word() >> 20, random.below(8193)];
    let (start_frame, total) = (random.one_of(&any), random.one_of(&any));
    let allocated = random.one_of(&[set, any[0], any[2]]);
    let levels = random.one_of(&[LEVELS, MOST_LEVELS, any[0], any[2]]);
    (bitmap, Frames { start_frame, total, allocated, levels })
}
