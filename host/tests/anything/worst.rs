//! Releases and protections of the largest regions there can be, over tables that make them as long as they can
//! be, on four and on five levels: they end, and in a time that does not follow the pages of the region.

use crate::found;
use crate::guard::{self, Against};
use crate::model::Model;
use crate::port::{self, Port};
use crate::report::{equal, holds, Report};
use calls::{Call, LAST, PAGE};
use gadulnos::raw::{
    Kernel, Line, Parts, Region, TallyNumbers, Told, User, LEVELS, MOST_LEVELS, NONE,
};
use std::time::Instant;

/// The number of frames of a large board.
const LARGE: u64 = 8192;

/// The longest that a check may take, in seconds.
const PATIENCE: u32 = 60;

/// A way to fill a table of each level: what stands at an index of each, the root first. The last has the
/// leaves.
type Tables = fn(levels: u64, index: usize) -> Vec<u64>;

const FIRST: u64 = 0x100;

/// An entry that leads to a frame of the board, and one that leads outside.
fn to(frame: u64) -> u64 {
    (FIRST + frame) << 12 | 7
}

const OUTSIDE: u64 = 0x9999_0007;

pub fn check(report: &mut Report) {
    let absent: Tables = |levels, _| vec![0; levels as usize];
    let one: Tables = |levels, i| (1..=levels).map(|k| if i == 0 { to(k) } else { 0 }).collect();
    let outside: Tables = |levels, _| vec![OUTSIDE; levels as usize];
    let looped: Tables = |levels, _| vec![to(0); levels as usize];
    let cut: Tables = |levels, i| {
        let mut words = wide(levels, i);
        if i == 511 {
            words[levels as usize - 2] = to(levels - 3);
        }
        words
    };
    // What is found where every page comes by, and from the kernel window up to the end, without the last page.
    let boards: [(&str, Tables, [TallyNumbers; 2]); 6] = [
        ("no table", absent, [NONE, NONE]),
        ("one page", one, [[0, 1, 0], NONE]),
        ("every table outside", outside, [NONE, NONE]),
        ("a root that leads to itself everywhere", looped, [[1, 511, 0], [1, 510, 0]]),
        ("a table of each level, reached in 512 ways from the one above", wide, [[0, 0, 256]; 2]),
        (
            "the same, and an entry that leads to a table on the way as to a last one",
            cut,
            [[0, 512, 256], [0, 511, 256]],
        ),
    ];
    for levels in [LEVELS, MOST_LEVELS] {
        for (name, tables, [all, high]) in boards {
            for (start, tally) in [(0, all), (PAGE, all), (0xFFFF_FFC0_0000_0000, high)] {
                let name = format!("{name}, from {start:x} to the end");
                timed(report, levels, &name, || release(levels, tables, start, tally));
            }
            protections(report, levels, name, small(levels, tables), &REGIONS);
        }
        let name = "8192 tables, each reached in many ways";
        timed(report, levels, name, || release_all(levels));
        protections(report, levels, name, large(levels, by_levels), &REGIONS[..1]);
        let name = "8192 tables, each of them one of every level";
        protections(report, levels, name, large(levels, mixed), &REGIONS[..1]);
    }
}

/// Regions to protect: from a page or from the midst of tables up to the end; some whose pages come round, on four
/// levels and on five, and one that does not.
const REGIONS: [(u64, u64); 5] = [
    (PAGE, LAST - PAGE),
    (0x1234_5678_9000, LAST - 0x1234_5678_9000),
    (0xFFFF_1234_5000, 1 << 47),
    (0x01FF_FFF1_2345_6000, 1 << 56),
    (0xFFFF_FFC0_0000_0000, 1 << 37),
];

/// Every entry of a table leads to the one of the level below.
fn wide(levels: u64, i: usize) -> Vec<u64> {
    let leaf = if i % 2 == 0 { 0 } else { OUTSIDE };
    (1..levels).map(to).chain([leaf]).collect()
}

/// A check with the time that it took.
fn timed(report: &mut Report, levels: u64, name: &str, check: impl FnOnce() -> Result<(), String>) {
    guard::within(PATIENCE);
    let begun = Instant::now();
    let result = check();
    let took = begun.elapsed().as_secs_f64();
    report.check(&format!("worst: {levels} levels, {name} ({took:.3} s)"), result);
}

/// A fresh board of so many frames and levels.
fn fresh(frames: u64, levels: u64) -> Result<Parts, String> {
    let mut board = Parts::lend(frames as usize);
    let (from, to) = (FIRST * PAGE, (FIRST + frames) * PAGE);
    equal(board.start_levels(from, to, levels), Line::met(0))?;
    Ok(board)
}

/// A board of few frames, a table of each level.
fn small(levels: u64, tables: Tables) -> Result<Parts, String> {
    let mut board = fresh(8, levels)?;
    for i in 0..512 {
        for (table, word) in tables(levels, i).into_iter().enumerate() {
            board.words[table * 512 + i] = word;
        }
    }
    Ok(board)
}

/// vfree and munmap of a region from `start` up to the last page, each of which finds this.
fn release(levels: u64, tables: Tables, start: u64, tally: TallyNumbers) -> Result<(), String> {
    let mut board = small(levels, tables)?;
    let size = LAST - start;
    record(&mut board, start, size)?;
    if start != 0 {
        let port = found(&board, Against::Behind, Call::Vfree { addr: start }, tally)?;
        nothing_left(&port, start)?;
    }
    let port = found(&board, Against::Before, Call::Munmap { addr: start, size }, tally)?;
    nothing_left(&port, start)
}

/// Makes a release, which is met and finds this, as can be read of the boards before and after it.
fn found(board: &Parts, against: Against, call: Call, tally: TallyNumbers) -> Result<Port, String> {
    let mut port = port::guarded(board, against);
    let told = port::play(&mut port, &call);
    equal(told, Told::found(tally))?;
    found::check(board, &port, &call, told)?;
    Ok(port)
}

/// Records one used vmalloc region and one mmap region.
fn record(board: &mut Parts, start: u64, size: u64) -> Result<(), String> {
    let mut kernel = Kernel::unpack(&board.kernel).ok_or("no list")?;
    kernel.slots[0] = gadulnos::raw::Slot { start, size, used: true };
    board.kernel = kernel.pack();
    let mut user = User::unpack(&board.user).ok_or("no list")?;
    user.count = 1;
    user.slots[0] = Region { start, size, prot: 0, flags: 0 };
    board.user = user.pack();
    Ok(())
}

/// The largest board, every frame of it a table full of present entries: what stands at an index of a frame.
fn large(levels: u64, word: fn(u64, u64, u64) -> u64) -> Result<Parts, String> {
    let mut board = fresh(LARGE, levels)?;
    for frame in 0..LARGE {
        for i in 0..512 {
            board.words[(frame * 512 + i) as usize] = word(levels, frame, i);
        }
    }
    Ok(board)
}

/// How many frames of the largest board each level below the root has.
fn share(levels: u64) -> u64 {
    (LARGE - 1) / (levels - 1)
}

/// A root, then as many frames on each level below it.
fn by_levels(levels: u64, frame: u64, i: u64) -> u64 {
    let share = share(levels);
    let depth = if frame == 0 { 0 } else { 1 + (frame - 1) / share };
    let next = 1 + depth * share + (frame * 512 + i) * 7919 % share;
    match depth < levels - 1 {
        true => to(next),
        false => OUTSIDE,
    }
}

/// Every frame leads to others, wherever it stands.
fn mixed(_levels: u64, frame: u64, i: u64) -> u64 {
    to((frame * 512 + i) * 7919 % LARGE)
}

/// Every entry of the last tables is found, and names a frame off the board.
fn release_all(levels: u64) -> Result<(), String> {
    let mut board = large(levels, by_levels)?;
    record(&mut board, PAGE, LAST - PAGE)?;
    let call = Call::Munmap { addr: PAGE, size: LAST - PAGE };
    let port = found(&board, Against::Behind, call, [0, 0, share(levels) * 512])?;
    nothing_left(&port, PAGE)
}

/// A check of mprotects on a board, with the time that the longest took.
fn protections(
    report: &mut Report,
    levels: u64,
    name: &str,
    board: Result<Parts, String>,
    regions: &[(u64, u64)],
) {
    guard::within(PATIENCE);
    let mut longest = 0.0;
    let result = board.and_then(|board| {
        regions.iter().try_for_each(|region| protect(&board, *region, &mut longest))
    });
    let name = format!("worst: {levels} levels, mprotect, {name} ({longest:.3} s)");
    report.check(&name, result);
}

/// Takes WRITABLE away and gives it back. Words and list are the model's, which finds the entries level by level.
fn protect(board: &Parts, (start, size): (u64, u64), longest: &mut f64) -> Result<(), String> {
    let mut port = port::guarded(board, Against::Behind);
    let mut user = User::unpack(&port.user).ok_or("no list")?;
    user.count = 1;
    user.slots[0] = Region { start, size, prot: 0, flags: 7 };
    port.user.copy_from_slice(&user.pack());
    let mut model = Model::of(&port);
    for prot in [i32::MIN, -1] {
        let begun = Instant::now();
        let line = port.mprotect(start, size, prot);
        *longest = longest.max(begun.elapsed().as_secs_f64());
        equal(line, Line::met(0))?;
        equal(line, model.play(&Call::Mprotect { addr: start, size, prot }).line)?;
        model.compare(&port)?;
    }
    Ok(())
}

/// No page of the region translates. One that is larger than all that the indices tell apart has every
/// page, since the bits above are ignored.
fn nothing_left(port: &Port, start: u64) -> Result<(), String> {
    let all = 1 << (12 + 9 * port.frames().levels);
    let low = [0, PAGE, 1 << 21, 1 << 30, 1 << 39, 1 << 48, 1 << 56];
    let high = [0xFF00_0000_0000_0000, 0xFFFF_FFC0_0000_0000, LAST - PAGE];
    let pages = low.into_iter().chain(high);
    for virt in pages.filter(|&virt| virt >= start || LAST - start >= all) {
        let line = port.translate(virt);
        holds(
            line.number == 14 || line.number == 19,
            &format!("no page at {virt:x}, not {line:x?}"),
        )?;
    }
    holds(port.frames().allocated <= 1, "one frame marked at most")
}
