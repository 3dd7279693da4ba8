//! Frames given back (document 02, slip 5): examples worked out by hand, on four levels and on five, the model
//! beside. A tally has the frames that were freed, those that were free already, and those not on the board.

use crate::example::{anywhere, fixed, map, translate, Example, FRAMES, FROM};
use crate::report::{equal, holds, Report};
use calls::{Call, KERNEL_WINDOW, LAST, PAGE, TEMPORARY, USER_WINDOW};
use gadulnos::raw::{
    Finding, Found, Frames, Kernel, Line, Region, Slot, User, LEVELS, MOST_LEVELS, NONE,
};

/// Where a fresh search of mmap finds room, and where vmalloc does.
const START: u64 = USER_WINDOW.0;
const WINDOW: u64 = KERNEL_WINDOW.0;

/// The frames of a board begin at 0x100; the last is this one.
const LAST_FRAME: u64 = 0x100 + FRAMES - 1;

/// Frames off the board: below it, behind it, and far away.
const OFF: [u64; 3] = [0xff, LAST_FRAME + 1, (1 << 40) - 1];

type Run = fn(u64) -> Result<(), String>;

pub fn check(report: &mut Report) {
    let checks: [(&str, Run); 17] = [
        ("deallocate_frame: freed, already free, not on this board", frames),
        ("a munmap that finds frames of each kind, and a page not mapped", munmap),
        ("a vfree that finds frames of each kind, and a page not mapped", vfree),
        ("frames below, behind and far from the board", off_board),
        ("two pages that have one frame", one_frame),
        ("a last table that two entries lead to", shared_table),
        ("a page below a HUGE entry, which is not looked at", below_huge),
        ("a page whose frame is its own table", own_table),
        ("a region of nearly 2^64 bytes", whole_space),
        ("releases that are refused", refused),
        ("a copy that frees its page's frame", copy),
        ("a copy whose page's frame is free", copy_of_free),
        ("a copy whose page's frame is taken for the copy", copy_to_itself),
        ("a copy that finds a frame off the board", copy_off_board),
        ("a copy whose remapping unmaps no page", copy_of_none),
        ("a copy, the temporary page mapped before", temporary),
        ("faults that tell of none: a demand page, refusals, 18 behind the free", none),
    ];
    for levels in [LEVELS, MOST_LEVELS] {
        for (name, run) in checks {
            report.check(&format!("frames given back on {levels} levels: {name}"), run(levels));
        }
    }
    report.check("frames given back: Found and Finding", types());
}

fn free(frame: u64) -> Call {
    Call::DeallocateFrame { frame }
}

fn unmap(virt: u64) -> Call {
    Call::UnmapPage { virt }
}

fn mark(addr: u64) -> Call {
    Call::MarkCow { addr }
}

/// A write to a marked page, by user code.
fn write(addr: u64) -> Call {
    Call::Fault { addr, code: 7 }
}

fn is_marked(frame: u64, wanted: u64) -> (Call, u64, u64) {
    (Call::IsAllocated { frame }, 0, wanted)
}

fn fresh(levels: u64) -> Result<Example, String> {
    Example::fresh(levels, FRAMES)
}

/// Lends a list of one region.
fn lend_region(board: &mut Example, start: u64, size: u64) -> Result<(), String> {
    let mut user = User::unpack(&board.port.user).ok_or("no list")?;
    user.count = 1;
    user.slots[0] = Region { start, size, prot: 3, flags: 0x22 };
    board.port.user.copy_from_slice(&user.pack());
    board.model.user = Some(user);
    Ok(())
}

fn types() -> Result<(), String> {
    let found = Found::met(1, 2, 3);
    equal((found.line(), found.tally(), found.sum()), (Line::met(0), [1, 2, 3], 6))?;
    let none = Found::refused(16);
    equal((none.line(), none.tally(), none.sum()), (Line::refused(16), NONE, 0))?;
    let numbers = [0, 1, 2].map(Finding::of);
    equal(numbers, Finding::ALL.map(Some))?;
    equal(Finding::of(3), None)?;
    let words: Vec<String> = Finding::ALL.iter().map(Finding::to_string).collect();
    equal(words, ["freed", "already free", "not on this board"].map(String::from).to_vec())
}

/// The first and the last frame of the board, and those beside them.
fn frames(levels: u64) -> Result<(), String> {
    let [freed, already_free, not_here] = [0, 1, 2];
    let mut board = fresh(levels)?;
    board.play(&[
        (Call::MarkAllocated { frame: LAST_FRAME }, 0, 0),
        (free(LAST_FRAME), 0, freed),
        (free(LAST_FRAME), 0, already_free),
        (free(0x100), 0, freed),
        (free(0x100), 0, already_free),
        (free(0x101), 0, already_free),
    ])?;
    board.counter(0)?;
    board.play(&OFF.map(|frame| (free(frame), 0, not_here)))?;
    board.play(&[(free(0), 0, not_here), (free(u64::MAX), 0, not_here)])?;
    let broken = Frames { allocated: 1, ..board.port.frames() };
    board.lend_fields(&broken.pack());
    board.play(&[(free(0x100), 10, 0), (free(0xff), 10, 0)])
}

/// Seven pages from an address on, as mapped in a row: their frames follow the tables, but for the first's. Then the
/// frames of two are freed, three pages are mapped off the board, and the last is not mapped.
fn spoil(board: &mut Example, levels: u64, start: u64) -> Result<(), String> {
    let frame = |page: u64| 0x100 + levels + page;
    board.play(&[
        (translate(start + PAGE), 0, frame(1) * PAGE),
        (free(frame(1)), 0, 0),
        (free(frame(2)), 0, 0),
    ])?;
    for (page, off) in (3..).zip(OFF) {
        let virt = start + page * PAGE;
        board.play(&[(unmap(virt), 0, frame(page)), (map(virt, off * PAGE), 0, 0)])?;
    }
    board.play(&[(unmap(start + 6 * PAGE), 0, frame(6))])?;
    // Root, tables, and the frames of seven pages but two.
    board.counter(levels + 5)
}

/// The frames that four pages had stay marked: nothing maps them.
fn munmap(levels: u64) -> Result<(), String> {
    let mut board = fresh(levels)?;
    board.play(&[(anywhere(7 * PAGE), 0, START)])?;
    spoil(&mut board, levels, START)?;
    board.finds(Call::Munmap { addr: START, size: 7 * PAGE - 5 }, [1, 2, 3])?;
    board.counter(levels + 4)?;
    board.play(&[is_marked(0x101, 0), (translate(START), 14, 0)])?;
    board.play(&[(anywhere(4 * PAGE), 0, START + 7 * PAGE)])?;
    board.finds(Call::Munmap { addr: START + 7 * PAGE, size: 4 * PAGE }, [4, 0, 0])
}

fn vfree(levels: u64) -> Result<(), String> {
    let mut board = fresh(levels)?;
    board.play(&[(Call::Vmalloc { size: 7 * PAGE }, 0, WINDOW)])?;
    spoil(&mut board, levels, WINDOW)?;
    board.finds(Call::Vfree { addr: WINDOW }, [1, 2, 3])?;
    board.counter(levels + 4)?;
    board.play(&[(Call::Vmalloc { size: 2 * PAGE }, 0, WINDOW)])?;
    board.finds(Call::Vfree { addr: WINDOW }, [2, 0, 0])
}

fn off_board(levels: u64) -> Result<(), String> {
    let mut board = fresh(levels)?;
    for (i, frame) in (0..).zip(OFF) {
        board.play(&[(map(START + i * PAGE, frame * PAGE), 0, 0)])?;
    }
    lend_region(&mut board, START, 3 * PAGE)?;
    board.finds(Call::Munmap { addr: START, size: 3 * PAGE }, [0, 0, 3])?;
    // The tables and the root stay.
    board.counter(levels)
}

/// The first page frees it, the second finds it free.
fn one_frame(levels: u64) -> Result<(), String> {
    let mut board = fresh(levels)?;
    board.play(&[(fixed(START, PAGE), 0, START), (map(START + PAGE, 0x10_1000), 0, 0)])?;
    lend_region(&mut board, START, 2 * PAGE)?;
    board.finds(Call::Munmap { addr: START, size: 2 * PAGE }, [1, 1, 0])
}

/// The second entry of the last table but one leads where the first does: each entry goes once.
fn shared_table(levels: u64) -> Result<(), String> {
    let mut board = fresh(levels)?;
    board.play(&[(fixed(START, 3 * PAGE), 0, START)])?;
    let table = 0x100 + levels;
    board.lend(&[(table - 1, 1, table << 12 | 7)]);
    lend_region(&mut board, START, 4 << 20)?;
    board.play(&[(translate((START + (2 << 20)) + PAGE), 0, (table + 1) * PAGE)])?;
    board.finds(Call::Munmap { addr: START, size: 4 << 20 }, [3, 0, 0])
}

/// As a table the frame of the HUGE entry has a leaf for the page, which goes and is counted.
fn below_huge(levels: u64) -> Result<(), String> {
    let mut board = fresh(levels)?;
    board.play(&[(fixed(START, PAGE), 0, START)])?;
    let table = 0x100 + levels;
    board.lend(&[(table - 1, 0, table << 12 | 0x87)]);
    board.play(&[(translate(START + 5), 0, table << 12 | 5)])?;
    board.finds(Call::Munmap { addr: START, size: PAGE }, [1, 0, 0])?;
    board.words(&[(table - 1, 0, table << 12 | 0x87), (table, 0, 0)])
}

/// The root's first entry leads to the root, on every level: page 0 clears it, and the way of all others.
fn own_table(levels: u64) -> Result<(), String> {
    let mut board = fresh(levels)?;
    board.lend(&[(0x100, 0, 0x10_0007), (0x100, 1, 0x10_0007)]);
    lend_region(&mut board, 0, 2 * PAGE)?;
    board.finds(Call::Munmap { addr: 0, size: 2 * PAGE }, [1, 0, 0])?;
    board.words(&[(0x100, 0, 0), (0x100, 1, 0x10_0007)])?;

    // From the second page on: that one is cleared first, and page 0, which comes round, finds the root free.
    let mut board = fresh(levels)?;
    board.lend(&[(0x100, 0, 0x10_0007), (0x100, 1, 0x10_0007)]);
    lend_region(&mut board, PAGE, LAST - PAGE)?;
    board.finds(Call::Munmap { addr: PAGE, size: LAST - PAGE }, [1, 1, 0])
}

/// Each page comes by many times, and is found once.
fn whole_space(levels: u64) -> Result<(), String> {
    let mut board = fresh(levels)?;
    board.play(&[
        (anywhere(3 * PAGE), 0, START),
        (map(START + 3 * PAGE, OFF[0] * PAGE), 0, 0),
        (map(START + 4 * PAGE, LAST_FRAME * PAGE), 0, 0),
    ])?;
    let mut kernel = Kernel::unpack(&board.port.kernel).ok_or("no list")?;
    kernel.slots[0] = Slot { start: PAGE, size: LAST - PAGE, used: true };
    board.port.kernel.copy_from_slice(&kernel.pack());
    board.model.kernel = Some(kernel);
    board.finds(Call::Vfree { addr: PAGE }, [3, 1, 1])?;
    board.counter(levels)
}

/// Nothing is told of the frames that stand.
fn refused(levels: u64) -> Result<(), String> {
    let mut board = fresh(levels)?;
    board.play(&[(anywhere(2 * PAGE), 0, START), (Call::Vmalloc { size: 1 }, 0, WINDOW)])?;
    for (addr, size, number) in [
        (START, 0, 1),
        (START + 1, 2 * PAGE, 2),
        (START, u64::MAX, 3),
        (START, PAGE, 16),
        (START + PAGE, PAGE, 16),
    ] {
        board.refuses(Call::Munmap { addr, size }, number)?;
    }
    board.refuses(Call::Vfree { addr: START }, 16)?;
    board.refuses(Call::Vfree { addr: 0 }, 16)?;
    let fields = board.port.fields.to_vec();
    board.lend_fields(&fields[..24]);
    board.refuses(Call::Munmap { addr: START, size: 2 * PAGE }, 10)?;
    board.refuses(Call::Vfree { addr: WINDOW }, 10)?;
    board.lend_fields(&fields);
    board.finds(Call::Munmap { addr: START, size: 2 * PAGE }, [2, 0, 0])?;
    board.finds(Call::Vfree { addr: WINDOW }, [1, 0, 0])
}

/// A page of frame 0x101 with a word, marked. Its tables are the frames from 0x102 on.
fn marked_page(levels: u64) -> Result<Example, String> {
    let mut board = fresh(levels)?;
    board.play(&[(anywhere(PAGE), 0, START), (mark(START), 0, 0)])?;
    board.lend(&[(0x101, 7, 0x5eed)]);
    Ok(board)
}

/// The page gets the frame behind its tables; those of the temporary page follow.
fn copy(levels: u64) -> Result<(), String> {
    let mut board = marked_page(levels)?;
    board.finds(write(START + 5), [1, 0, 0])?;
    let new = 0x101 + levels;
    board.words(&[(new, 7, 0x5eed), (0x100 + levels, 0, new << 12 | 7)])?;
    board.play(&[is_marked(0x101, 0), is_marked(new, 1), (translate(TEMPORARY), 14, 0)])?;
    // Root, page, and the tables of both.
    board.counter(2 * levels)?;
    board.finds(Call::Munmap { addr: START, size: PAGE }, [1, 0, 0])
}

/// The last frame of the board is not marked, and too high to be taken for the copy.
fn copy_of_free(levels: u64) -> Result<(), String> {
    let mut board = fresh(levels)?;
    board.play(&[(map(START, LAST_FRAME * PAGE), 0, 0), (mark(START), 0, 0)])?;
    board.finds(write(START), [0, 1, 0])?;
    board.counter(2 * levels)
}

/// The page's frame, free, is the lowest: it is taken, copied to itself, found marked and freed, and mapped again.
fn copy_to_itself(levels: u64) -> Result<(), String> {
    let mut board = marked_page(levels)?;
    board.play(&[(free(0x101), 0, 0)])?;
    board.finds(write(START), [1, 0, 0])?;
    board.play(&[(translate(START), 0, 0x10_1000), is_marked(0x101, 0)])?;
    board.finds(Call::Munmap { addr: START, size: PAGE }, [0, 1, 0])
}

/// A page that translates by a HUGE entry to the last frame, which as a table has this word for it.
fn below(levels: u64, leaf: u64) -> Result<Example, String> {
    let mut board = marked_page(levels)?;
    let table = 0x100 + levels;
    board.lend(&[(table - 1, 0, LAST_FRAME << 12 | 0x87), (LAST_FRAME, 0, leaf)]);
    board.lend(&[(LAST_FRAME, 9, 0xf00d)]);
    Ok(board)
}

/// A page to copy is in a lent frame, or it is 18; what the remapping unmaps may be another.
fn copy_off_board(levels: u64) -> Result<(), String> {
    let mut board = below(levels, OFF[2] << 12 | 1)?;
    board.finds(write(START), [0, 0, 1])?;
    let new = 0x101 + levels;
    board.words(&[(new, 9, 0xf00d), (LAST_FRAME, 0, new << 12 | 7)])?;
    board.play(&[is_marked(0x101, 1)])
}

fn copy_of_none(levels: u64) -> Result<(), String> {
    let mut board = below(levels, 0x5eec)?;
    board.finds(write(START), NONE)?;
    let new = 0x101 + levels;
    board.words(&[(new, 0, 0x5eec), (new, 9, 0xf00d), (LAST_FRAME, 0, new << 12 | 7)])?;
    board.play(&[is_marked(0x101, 1), (Call::IsCow { addr: START }, 0, 0)])?;

    // The temporary page itself: it is unmapped before, and what is unmapped of it does not count.
    let mut board = fresh(levels)?;
    board.play(&[(fixed(TEMPORARY, PAGE), 0, TEMPORARY), (mark(TEMPORARY), 0, 0)])?;
    board.finds(write(TEMPORARY), NONE)?;
    board.play(&[is_marked(0x101, 1)])
}

/// To a frame that is marked, to a free one, and off the board: it is unmapped, its frame stays as it is, and the
/// page's alone is counted.
fn temporary(levels: u64) -> Result<(), String> {
    for (frame, is_free) in [(LAST_FRAME, false), (LAST_FRAME, true), (OFF[0], false)] {
        let mut board = marked_page(levels)?;
        board.play(&[(map(TEMPORARY, frame * PAGE), 0, 0)])?;
        if frame == LAST_FRAME && !is_free {
            board.play(&[(Call::MarkAllocated { frame }, 0, 0)])?;
        }
        board.finds(write(START), [1, 0, 0])?;
        board.play(&[is_marked(frame, u64::from(!is_free)), (translate(TEMPORARY), 14, 0)])?;
    }
    Ok(())
}

fn none(levels: u64) -> Result<(), String> {
    let mut board = marked_page(levels)?;
    board.finds(Call::Fault { addr: START + PAGE, code: 6 }, NONE)?;
    for (addr, code, number) in
        [(START, 15, 5), (1 << 47, 0, 6), (START, 17, 7), (START, 1, 8), (START + PAGE, 3, 17)]
    {
        board.refuses(Call::Fault { addr, code }, number)?;
    }
    // A page to copy that is not in a lent frame.
    board.lend(&[(0x100 + levels, 0, OFF[1] << 12 | 7)]);
    board.refuses(write(START), 18)?;
    late(levels)?;
    full(levels)
}

/// The root leads to itself: page 0 is the root's first entry. The copy clears it and frees the root, takes the root
/// for a table, zeroes it and enters it where it was, and finds the page mapped: 18, and no frame is told of.
fn late(levels: u64) -> Result<(), String> {
    let mut board = fresh(levels)?;
    board.lend(&[(0x100, 0, 0x10_0007)]);
    board.play(&[(mark(0), 0, 0), (translate(0), 0, FROM)])?;
    board.refuses(write(0), 18)?;
    board.words(&[(0x100, 0, 0x10_0007), (0x100, 511, 0)])?;
    holds(board.frame(0x101)[0] == 0x10_0007, "the copy of the root")
}

/// 11 where no frame is left for a copy, and for a demand page.
fn full(levels: u64) -> Result<(), String> {
    let mut board = Example::fresh(levels, levels + 1)?;
    board.play(&[(fixed(START, PAGE), 0, START), (mark(START), 0, 0)])?;
    board.refuses(write(START), 11)?;
    board.refuses(Call::Fault { addr: START + PAGE, code: 6 }, 11)
}
