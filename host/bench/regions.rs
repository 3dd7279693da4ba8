//! vmalloc with vfree, mmap with munmap, mprotect, the search by itself, and refusals.

use crate::sides::Side;
use crate::table::{timed, Row, Table, Work};
use crate::trio::{each, state, Trio};
use crate::{LARGE, SMALL};
use calls::{PAGE, USER_WINDOW};
use gadulnos::raw::{LEVELS, MOST_LEVELS};
use std::hint::black_box;

/// Frames, pages, regions, and whether the line stands in the first table.
const SIZES: [(u64, u64, u64, bool); 14] = [
    (LARGE, 1, 2, true),
    (LARGE, 16, 2, true),
    (LARGE, 512, 2, true),
    (LARGE, 1, 200, true),
    (LARGE, 16, 200, true),
    (LARGE, 512, 200, true),
    (SMALL, 1, 2, true),
    (LARGE, 1, 50, false),
    (LARGE, 1, 100, false),
    (LARGE, 1, 250, false),
    (LARGE, 4, 2, false),
    (LARGE, 64, 2, false),
    (LARGE, 256, 2, false),
    (LARGE, 2048, 2, false),
];

fn on(frames: u64, pages: u64, regions: u64) -> String {
    let pages = if pages == 1 { "1 page".to_string() } else { format!("{pages} pages") };
    let frames = if frames == LARGE { String::new() } else { format!("{frames} frames, ") };
    format!("{frames}{pages}, {regions} regions")
}

/// How many pairs of calls a round makes.
fn pairs(pages: u64) -> u64 {
    (512 / pages).clamp(2, 64)
}

pub fn rows(table: &mut Table) {
    for (frames, pages, regions, main) in SIZES {
        let goal = Some(if pages < 16 { 8.0 } else { 1.5 });
        let row = Row { what: "vmalloc, vfree", on: on(frames, pages, regions), goal, main };
        table.row(row, || (kernel_board(frames, regions), Vmalloc { pages }));
    }
    for (frames, pages, regions, main) in SIZES {
        let (on, goal) = (on(frames, pages, regions), Some(1.5));
        let row = Row { what: "mmap, munmap", on, goal, main };
        table.row(row, || Mmap::set_up(user_board(frames, regions), pages));
    }
    for pages in [1, 16] {
        let on = format!("five levels, {}", on(LARGE, pages, 2));
        let row = Row { what: "mmap, munmap", on, goal: None, main: true };
        table.row(row, || Mmap::set_up(user_board_of(LARGE, MOST_LEVELS, 2), pages));
    }
    let sizes = [(1, 2, true), (16, 2, true), (64, 2, false), (512, 2, false), (1, 200, false)];
    for (pages, regions, main) in sizes {
        let on = on(LARGE, pages, regions);
        let row = Row { what: "mprotect", on, goal: None, main };
        table.row(row, || Protect::set_up(user_board(LARGE, regions), pages));
    }
    let on = format!("five levels, {}", on(LARGE, 16, 2));
    table.row(Row { what: "mprotect", on, goal: None, main: true }, || {
        Protect::set_up(user_board_of(LARGE, MOST_LEVELS, 2), 16)
    });
    for (regions, from_first, main) in [(2, false, true), (200, false, false), (200, true, true)] {
        let from = if from_first { ", from the first on" } else { "" };
        let on = format!("{regions} regions{from}");
        table.row(Row { what: "find_free_region", on, goal: None, main }, || {
            let mut trio = user_board(LARGE, regions + 1);
            if from_first {
                each!(trio, side => side.set_next_addr(USER_WINDOW.0));
            }
            (trio, Search)
        });
    }
    for (regions, main) in [(2, true), (200, false)] {
        let row = |what| Row { what, on: format!("{regions} regions"), goal: None, main };
        let size_zero = row("refused: vmalloc of size 0");
        table.row(size_zero, || (kernel_board(LARGE, regions), SizeZero));
        let unknown = row("refused: munmap of an unknown address");
        table.row(unknown, || (user_board(LARGE, regions), Unknown));
    }
}

/// A board with so many vmalloc regions, all but the last one used.
fn kernel_board(frames: u64, regions: u64) -> Trio {
    let mut trio = Trio::start(frames);
    each!(trio, side => for _ in 1..regions {
        assert!(side.vmalloc(PAGE).is_some());
    });
    trio
}

/// A board on which one mmap more makes so many regions.
fn user_board(frames: u64, regions: u64) -> Trio {
    user_board_of(frames, LEVELS, regions)
}

fn user_board_of(frames: u64, levels: u64, regions: u64) -> Trio {
    let mut trio = Trio::start_levels(frames, levels);
    each!(trio, side => for _ in 1..regions {
        assert!(side.mmap(PAGE).is_some());
    });
    trio
}

struct Vmalloc {
    pages: u64,
}

impl Work for Vmalloc {
    fn round<S: Side>(&self, side: &mut S) -> f64 {
        timed(pairs(self.pages), |_| {
            let found = side.vmalloc(black_box(self.pages * PAGE)).unwrap_or(0);
            side.vfree(black_box(found))
        })
    }
}

/// next_addr is set back after each round, outside the timed part.
struct Mmap {
    pages: u64,
    next_addr: u64,
}

impl Mmap {
    fn set_up(trio: Trio, pages: u64) -> (Trio, Mmap) {
        let next_addr = state(&trio.port.board).map_or(0, |state| state.next_addr);
        (trio, Mmap { pages, next_addr })
    }
}

impl Work for Mmap {
    fn round<S: Side>(&self, side: &mut S) -> f64 {
        let time = timed(pairs(self.pages), |_| {
            let size = black_box(self.pages * PAGE);
            let found = side.mmap(size).unwrap_or(0);
            side.munmap(black_box(found), size)
        });
        side.set_next_addr(self.next_addr);
        time
    }
}

/// A region that is made read-only and writable again in turns. A round ends as it began, so that the Rust's
/// board, which has no such call, stays in the same state.
struct Protect {
    addr: u64,
    size: u64,
}

impl Protect {
    fn set_up(mut trio: Trio, pages: u64) -> (Trio, Protect) {
        let addr = state(&trio.port.board).map_or(0, |state| state.next_addr);
        let size = pages * PAGE;
        each!(trio, side => assert_eq!(side.mmap(size), Some(addr)));
        assert_eq!(trio.port.mprotect(addr, size, 3), Some(0));
        assert_eq!(trio.same.mprotect(addr, size, 3), Some(0));
        (trio, Protect { addr, size })
    }
}

impl Work for Protect {
    const IN_RUST: bool = false;

    fn round<S: Side>(&self, side: &mut S) -> f64 {
        let prots = [1, 3];
        timed(128, |i| {
            let (addr, size) = (black_box(self.addr), black_box(self.size));
            side.mprotect(addr, size, black_box(prots[i as usize % 2]))
        })
    }
}

struct Search;

impl Work for Search {
    fn round<S: Side>(&self, side: &mut S) -> f64 {
        timed(64, |_| side.find_free_region(black_box(PAGE)))
    }
}

struct SizeZero;

impl Work for SizeZero {
    fn round<S: Side>(&self, side: &mut S) -> f64 {
        timed(1000, |_| side.vmalloc(black_box(0)))
    }
}

struct Unknown;

impl Work for Unknown {
    fn round<S: Side>(&self, side: &mut S) -> f64 {
        timed(1000, |_| side.munmap(black_box(0x5000_0000_0000), black_box(PAGE)))
    }
}
