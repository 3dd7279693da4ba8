//! What refused and odd calls leave behind, where it is easy to miss.

use super::rinux::oracle::{Board, Call};
use super::run::{board, check as report_on, expect, fixed, mmap, PAGE, START};
use crate::report::{equal, holds, Check, Report};

const FIRST: u64 = START / PAGE;
const USER: u64 = 0x1000_0000_0000;
const KERNEL: u64 = 0xFFFF_FFC0_0000_0000;
const TEMPORARY: u64 = calls::TEMPORARY;

pub fn check(report: &mut Report) {
    let checks: [Check; 9] = [
        ("a refused vmalloc splits, up to 256 regions", refused_vmalloc_splits),
        ("a vmalloc on a stranded page is 13 and loses a frame", stranded_page),
        ("mmap with 11 and with 13", mmap_leftovers),
        ("vmalloc and mmap in one another's range", crossing_ranges),
        ("a first fault on a mapped page loses a frame", fault_on_mapped_page),
        ("a copy moves words, frees the old frame, unmarks", copy),
        ("a copy frees a frame that another page maps too", copy_of_shared_frame),
        ("a copy unmaps a region's temporary page, its frame stays", copy_over_region),
        ("the second path overwrites and zeroes", second_path),
    ];
    for (name, run) in checks {
        report_on(report, name, run());
    }
}

fn refused_vmalloc_splits() -> Result<(), String> {
    let mut board = board(1)?;
    for pages in 1..=255 {
        expect(&mut board, &[(Call::Vmalloc { size: pages * PAGE }, "11|13 0")])?;
        equal(board.state().vmalloc_count as u64, pages + 1)?;
    }
    let tail = board.state().vmalloc()[255];
    expect(&mut board, &[(Call::Vmalloc { size: 256 * PAGE }, "11|13 0")])?;
    let state = board.state();
    equal(state.vmalloc_count, 256)?;
    equal((state.vmalloc()[255].start, state.vmalloc()[255].size), (tail.start, 256 * PAGE))
}

fn stranded_page() -> Result<(), String> {
    let mut board = board(6)?;
    expect(&mut board, &[(Call::Vmalloc { size: 3 * PAGE }, "11|13 0"), (Call::Counts, "0 6")])?;
    let free = Call::DeallocateFrame { frame: FIRST + 5 };
    expect(
        &mut board,
        &[(free, "0 0"), (Call::Vmalloc { size: PAGE }, "11|13 0"), (Call::Counts, "0 6")],
    )?;
    expect(&mut board, &[(Call::Translate { addr: KERNEL }, "0 101000")])
}

fn mmap_leftovers() -> Result<(), String> {
    let mut board = board(8)?;
    expect(&mut board, &[(mmap(5 * PAGE), "11 0"), (Call::Counts, "0 8")])?;
    let still_mapped = Call::Translate { addr: USER + 3 * PAGE };
    expect(
        &mut board,
        &[(still_mapped, "0 107000"), (Call::Translate { addr: USER + 4 * PAGE }, "14 0")],
    )?;
    equal(board.state().regions.len(), 0)?;
    drop(board);

    let mut board = self::board(16)?;
    expect(&mut board, &[(mmap(PAGE), "0 100000000000"), (Call::Counts, "0 5")])?;
    expect(&mut board, &[(fixed(USER - 2 * PAGE, 3 * PAGE), "13 0"), (Call::Counts, "0 b")])?;
    expect(
        &mut board,
        &[
            (Call::Translate { addr: USER - PAGE }, "14 0"),
            (Call::Translate { addr: USER }, "0 101000"),
        ],
    )
}

fn crossing_ranges() -> Result<(), String> {
    let mut board = board(32)?;
    expect(
        &mut board,
        &[(fixed(KERNEL, PAGE), "0 ffffffc000000000"), (Call::Vmalloc { size: 1 }, "13 0")],
    )?;
    drop(board);
    let mut board = self::board(32)?;
    expect(
        &mut board,
        &[(Call::Vmalloc { size: 1 }, "0 ffffffc000000000"), (fixed(KERNEL, PAGE), "13 0")],
    )
}

fn fault_on_mapped_page() -> Result<(), String> {
    let mut board = board(16)?;
    let fault = Call::Fault { addr: 0x5123, code: 2 };
    expect(&mut board, &[(fault, "0 0"), (Call::Counts, "0 5")])?;
    expect(&mut board, &[(fault, "18 0"), (fault, "18 0"), (Call::Counts, "0 7")])
}

/// A marked page with a word in it: the index of its frame.
fn marked_page(board: &mut Board) -> Result<usize, String> {
    expect(board, &[(mmap(PAGE), "0 100000000000"), (Call::MarkCow { addr: USER + 5 }, "0 0")])?;
    expect(
        board,
        &[(Call::Translate { addr: USER }, "0 101000"), (Call::IsCow { addr: USER }, "0 1")],
    )?;
    board.words_mut()[512 + 7] = 0x77;
    Ok(1)
}

fn copy() -> Result<(), String> {
    let mut board = board(16)?;
    marked_page(&mut board)?;
    expect(
        &mut board,
        &[
            (Call::Fault { addr: USER + 9, code: 7 }, "0 0"),
            (Call::Translate { addr: USER }, "0 105000"),
        ],
    )?;
    expect(
        &mut board,
        &[(Call::IsCow { addr: USER }, "0 0"), (Call::Translate { addr: TEMPORARY }, "14 0")],
    )?;
    let state = board.state();
    equal(state.words[5 * 512 + 7], 0x77)?;
    holds(!state.is_marked(FIRST + 1), "the old frame to be free")?;
    // The root, three user tables, the new frame and three tables for the temporary page.
    equal(state.allocated, 8)
}

fn copy_of_shared_frame() -> Result<(), String> {
    let mut board = board(16)?;
    marked_page(&mut board)?;
    let again = Call::MapPage { virt: USER + PAGE, phys: (FIRST + 1) * PAGE, flags: 3 };
    expect(&mut board, &[(again, "0 0"), (Call::Fault { addr: USER, code: 3 }, "0 0")])?;
    expect(&mut board, &[(Call::Translate { addr: USER + PAGE }, "0 101000")])?;
    holds(!board.state().is_marked(FIRST + 1), "the frame to be free, though mapped")
}

fn copy_over_region() -> Result<(), String> {
    let mut board = board(24)?;
    marked_page(&mut board)?;
    expect(
        &mut board,
        &[(super::run::hint(TEMPORARY, PAGE), "0 ffffffffffff0000"), (Call::Counts, "0 9")],
    )?;
    expect(&mut board, &[(Call::Fault { addr: USER, code: 3 }, "0 0"), (Call::Counts, "0 9")])?;
    expect(&mut board, &[(Call::Translate { addr: TEMPORARY }, "14 0")])?;
    holds(board.state().is_marked(FIRST + 5), "the region's frame to stay marked")
}

fn second_path() -> Result<(), String> {
    let mut board = Board::start_on(START, START + 16 * PAGE, |words| words.fill(u64::MAX))
        .map_err(|why| format!("{why:?}"))?;
    let fault = Call::SecondFault { addr: 0x7123, code: 6 };
    expect(&mut board, &[(fault, "0 0"), (Call::Translate { addr: 0x7000 }, "0 101000")])?;
    holds(board.words()[512..1024].iter().all(|word| *word == 0), "a zeroed frame")?;
    expect(&mut board, &[(fault, "0 0"), (Call::Translate { addr: 0x7000 }, "0 105000")])?;
    holds(board.state().is_marked(FIRST + 1), "the overwritten frame to stay marked")?;
    expect(
        &mut board,
        &[
            (Call::SecondFault { addr: 0, code: 3 }, "17 0"),
            (Call::SecondFault { addr: 0, code: 8 }, "5 0"),
        ],
    )
}
