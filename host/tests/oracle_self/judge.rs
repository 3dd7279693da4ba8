//! The domain of equality, judged on boards made for it.

use crate::checked::rinux::oracle::{Board, Call};
use crate::checked::run::{board, fixed, hint, mmap};
use crate::report::{equal, holds, Check, Report};
use calls::{LAST, PAGE, TEMPORARY};
use trial::domain::{read, Reason, Sequence, Verdict};
use trial::state::{Region, State};

const FIRST: u64 = 0x100;
const USER: u64 = 0x1000_0000_0000;

pub fn check(report: &mut Report) {
    let checks: [Check; 10] = [
        ("domain: sums", sums),
        ("domain: limits", limits),
        ("domain: broken records", broken),
        ("domain: boards of five levels", five_levels),
        ("domain: tables off the board", off_board),
        ("domain: a HUGE entry of the last level but one is followed but by translate", huge),
        ("domain: a free frame as table", free_table),
        ("domain: copies", copies),
        ("domain: the page copied from the lowest free frame", copy_from_free),
        ("domain: an mprotect ends it, met or refused", ended),
    ];
    for (name, run) in checks {
        report.check(name, run());
    }
}

fn judge(board: &Board, calls: &[(Call, Verdict)]) -> Result<(), String> {
    for (call, wanted) in calls {
        let got = read(&board.state(), call).verdict;
        if got != *wanted {
            return Err(format!("{call}: got {got:?}, wanted {wanted:?}"));
        }
    }
    Ok(())
}

/// Plays calls, which must be inside and met.
fn prepare(board: &mut Board, calls: &[Call]) -> Result<(), String> {
    for call in calls {
        judge(board, &[(*call, Verdict::Inside)])?;
        holds(board.play(call).met, &format!("{call} to be met"))?;
    }
    Ok(())
}

const SUM: Verdict = Verdict::Outside(Reason::Sum);

fn sums() -> Result<(), String> {
    let mut board = board(64)?;
    judge(
        &board,
        &[
            (Call::Vmalloc { size: LAST - 1 }, Verdict::Inside),
            (Call::Vmalloc { size: LAST }, Verdict::Edge),
            (Call::Vmalloc { size: LAST + 1 }, SUM),
            (Call::Munmap { addr: 0, size: LAST }, Verdict::Edge),
            (Call::Munmap { addr: 1, size: LAST + 1 }, Verdict::Inside),
            (Call::Munmap { addr: 0, size: LAST + 1 }, SUM),
            (mmap(LAST - USER - PAGE), Verdict::Inside),
            (mmap(LAST - USER + PAGE), SUM),
            (fixed(1, LAST + 1), SUM),
            (fixed(LAST - PAGE, PAGE), Verdict::Edge),
            (fixed(LAST - PAGE, PAGE + 1), SUM),
            (hint(LAST - PAGE, PAGE), Verdict::Edge),
            (hint(LAST, PAGE), SUM),
            (hint(LAST + 1, PAGE), Verdict::Inside),
        ],
    )?;
    prepare(&mut board, &[hint(LAST - 3 * PAGE, PAGE)])?;
    let overlapping = hint(LAST - 4 * PAGE, 5 * PAGE);
    judge(&board, &[(mmap(2 * PAGE), Verdict::Inside), (mmap(3 * PAGE), SUM), (overlapping, SUM)])
}

fn limits() -> Result<(), String> {
    let mut board = board(300)?;
    for i in 0..256 {
        let page = USER + 2 * i * PAGE;
        prepare(&mut board, &[fixed(page, PAGE), Call::MarkCow { addr: page }])?;
    }
    let limit = Verdict::Outside(Reason::Limit);
    judge(
        &board,
        &[
            (mmap(1), limit),
            (fixed(USER + PAGE, 1), limit),
            (fixed(USER, 1), Verdict::Inside),
            (mmap(1 << 47), Verdict::Inside),
            (Call::MarkCow { addr: USER + 2 * PAGE + 7 }, Verdict::Inside),
            (Call::MarkCow { addr: USER + PAGE }, limit),
        ],
    )
}

fn broken() -> Result<(), String> {
    let broken = [(Call::Counts, Verdict::Outside(Reason::Broken))];
    let mut board = board(16)?;
    let fresh = board.state().bitmap;
    board.set_frames(&fresh, 2);
    judge(&board, &broken)?;
    board.set_frames(&fresh, 1);
    judge(&board, &[(Call::Counts, Verdict::Inside)])?;
    board.set_root(FIRST + 16);
    judge(&board, &broken)?;
    board.set_root(FIRST);
    let region = |start, size| Region { start, size, prot: 0, flags: 0 };
    for (start, size) in [(1, PAGE), (PAGE, 0), (PAGE, 1), (LAST, PAGE)] {
        board.set_mmap(&[region(start, size)], 0);
        judge(&board, &broken)?;
    }
    board.set_mmap(&[region(LAST - PAGE, PAGE)], 1);
    judge(&board, &broken)?;
    board.set_mmap(&[region(LAST - PAGE, PAGE)], LAST);
    judge(&board, &[(Call::Counts, Verdict::Inside)])
}

/// The Rust has four levels: on five every call is outside, and another number is a broken record.
fn five_levels() -> Result<(), String> {
    let mut board = board(16)?;
    prepare(&mut board, &[mmap(PAGE), Call::Vmalloc { size: 1 }])?;
    let calls = [
        Call::Counts,
        Call::Translate { addr: USER },
        Call::Munmap { addr: USER, size: PAGE },
        Call::Vmalloc { size: LAST + 1 },
        fixed(1 << 47, PAGE),
        Call::MarkCow { addr: USER },
    ];
    for (levels, reason) in
        [(5, Reason::Levels), (0, Reason::Broken), (3, Reason::Broken), (6, Reason::Broken)]
    {
        for call in &calls {
            let reading = read(&State { levels, ..board.state() }, call);
            equal((reading.verdict, reading.safe), (Verdict::Outside(reason), false))?;
        }
    }
    let broken = State { levels: 5, allocated: 0, ..board.state() };
    equal(read(&broken, &calls[0]).verdict, Verdict::Outside(Reason::Broken))?;
    judge(&board, &[(calls[0], Verdict::Inside), (calls[1], Verdict::Inside)])
}

fn off_board() -> Result<(), String> {
    let mut board = board(16)?;
    let outside = Verdict::Outside(Reason::OffBoard);
    board.words_mut()[0] = 0x50_0003;
    board.words_mut()[1] = ((FIRST + 16) * PAGE) | 1;
    judge(
        &board,
        &[
            (Call::Translate { addr: 0 }, outside),
            (Call::UnmapPage { virt: 1 << 39 }, outside),
            (Call::Fault { addr: 0, code: 2 }, outside),
            (Call::SecondFault { addr: 0, code: 2 }, outside),
            (fixed((1 << 39) - PAGE, PAGE), outside),
            (fixed((2 << 39) - PAGE, 2 * PAGE), outside),
            (mmap(PAGE), Verdict::Inside),
            (Call::Translate { addr: 2 << 39 }, Verdict::Inside),
        ],
    )
}

fn huge() -> Result<(), String> {
    let mut board = board(16)?;
    let virt = 5 << 30;
    prepare(&mut board, &[Call::MapHugePage { virt, phys: 1 << 30, gigabyte: true, flags: 3 }])?;
    let outside = Verdict::Outside(Reason::OffBoard);
    judge(
        &board,
        &[
            (Call::Translate { addr: virt + 5 }, Verdict::Inside),
            (Call::UnmapPage { virt }, outside),
            (Call::MapPage { virt: virt + PAGE, phys: 0, flags: 0 }, outside),
            (Call::MapPage { virt: virt + (1 << 21), phys: 0, flags: 0 }, Verdict::Inside),
            (Call::MapHugePage { virt, phys: 0, gigabyte: false, flags: 0 }, outside),
            (Call::MapHugePage { virt, phys: 0, gigabyte: true, flags: 0 }, Verdict::Inside),
            (Call::Fault { addr: virt, code: 0 }, outside),
        ],
    )
}

fn free_table() -> Result<(), String> {
    let mut board = board(16)?;
    prepare(&mut board, &[mmap(PAGE), Call::DeallocateFrame { frame: FIRST + 3 }])?;
    let outside = Verdict::Outside(Reason::FreeTable);
    judge(
        &board,
        &[
            (Call::Translate { addr: USER }, outside),
            (Call::Munmap { addr: USER, size: 1 }, outside),
            (mmap(PAGE), outside),
            (Call::Translate { addr: 0 }, Verdict::Inside),
            (Call::Vmalloc { size: 1 }, Verdict::Inside),
        ],
    )?;
    // A page whose frame is a table: freeing it leaves a free table.
    drop(board);
    let mut board = crate::checked::run::board(16)?;
    let root_as_page = Call::MapPage { virt: USER + PAGE, phys: FIRST * PAGE, flags: 0 };
    prepare(&mut board, &[mmap(PAGE), root_as_page, Call::UnmapPage { virt: USER }])?;
    prepare(&mut board, &[Call::DeallocateFrame { frame: FIRST }])?;
    judge(&board, &[(Call::Translate { addr: 0 }, outside), (Call::AllocateFrame, Verdict::Inside)])
}

fn copies() -> Result<(), String> {
    let mut board = board(16)?;
    let write = |addr| Call::Fault { addr, code: 3 };
    let marks = [0x5000, 0x6000, USER, TEMPORARY].map(|addr| Call::MarkCow { addr });
    prepare(&mut board, &marks)?;
    prepare(&mut board, &[mmap(PAGE), Call::MapPage { virt: 0x5000, phys: 0x50_0000, flags: 0 }])?;
    let outside = Verdict::Outside(Reason::Copy);
    judge(
        &board,
        &[(write(0x5000), outside), (write(0x6000), outside), (write(USER), Verdict::Inside)],
    )?;
    judge(&board, &[(write(TEMPORARY), outside), (write(TEMPORARY ^ 1 << 60), Verdict::Inside)])?;
    // Without a frame, or without one for the temporary page's tables, nothing is copied.
    for free in [0, 1] {
        let (bitmap, marked) = (board.state().bitmap, board.state().allocated);
        let mut full = bitmap;
        full[0] = 0xFFFF >> free;
        board.set_frames(&full, 16 - free);
        judge(&board, &[(write(0x6000), Verdict::Inside)])?;
        board.set_frames(&bitmap, marked);
    }
    Ok(())
}

/// Where the page is mapped to the frame that the copy takes, source and target are one.
fn copy_from_free() -> Result<(), String> {
    let mut board = board(16)?;
    prepare(&mut board, &[mmap(PAGE), Call::MarkCow { addr: USER }])?;
    prepare(&mut board, &[Call::DeallocateFrame { frame: FIRST + 1 }])?;
    judge(&board, &[(Call::Fault { addr: USER, code: 3 }, Verdict::Outside(Reason::Copy))])?;
    equal(board.state().is_marked(FIRST + 1), false)
}

/// The Rust may be given it, and answers 9. Every call behind it is outside, and a call that was so before for another
/// reason still is for that one. A sequence that makes none stays inside.
fn ended() -> Result<(), String> {
    let mut board = board(16)?;
    prepare(&mut board, &[mmap(PAGE)])?;
    let outside = Verdict::Outside(Reason::Mprotect);
    for (addr, size) in [(USER, PAGE), (USER, 0), (USER + 1, PAGE), (0, LAST + 1)] {
        let call = Call::Mprotect { addr, size, prot: 1 };
        let reading = read(&board.state(), &call);
        equal((reading.verdict, reading.safe), (outside, true))?;
        let mut sequence = Sequence::default();
        let mut judged = |call: &Call| sequence.read(&board.state(), call).verdict;
        equal(judged(&Call::Translate { addr: USER }), Verdict::Inside)?;
        equal(judged(&call), outside)?;
        equal(judged(&Call::Translate { addr: USER }), outside)?;
        equal(judged(&Call::Vmalloc { size: LAST + 1 }), SUM)?;
        equal(judged(&Call::Counts), outside)?;
    }
    judge(&board, &[(Call::Translate { addr: USER }, Verdict::Inside)])
}
