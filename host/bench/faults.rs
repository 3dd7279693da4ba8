//! Both fault paths, the marked pages, and the start.

use crate::frames::marked_board;
use crate::sides::Side;
use crate::table::{mean_of, timed, Row, Table, Work};
use crate::trio::{each, Trio, START};
use crate::{LARGE, SMALL};
use calls::{PAGE, TEMPORARY};
use std::hint::black_box;

/// A fault's code: a write by user code to a page that is not present, and to one that is.
const ABSENT: u64 = 6;
const PRESENT: u64 = 7;

const GOAL: Option<f64> = Some(1.5);

pub fn rows(table: &mut Table) {
    for (total, marked, main) in [
        (LARGE, 1, true),
        (SMALL, 1, true),
        (LARGE, 1000, false),
        (LARGE, 4000, false),
        (LARGE, 8000, false),
    ] {
        for (what, second) in [("fault: a page on demand", false), ("second path: a page", true)] {
            let on = format!("{total} frames, {marked} marked");
            let row = Row { what, on, goal: GOAL, main };
            table
                .row(row, || (marked_board(total, marked), Demand { pages: batch(total), second }));
        }
    }
    for (total, marked, main) in
        [(LARGE, 64, true), (SMALL, 8, true), (LARGE, 128, false), (LARGE, 255, false)]
    {
        let on = format!("{total} frames, {marked} pages marked");
        let row = Row { what: "fault: a copy", on, goal: GOAL, main };
        table.row(row, || {
            (copied_board(total), Copy { pages: batch(total), list: list(marked, 1) })
        });
    }
    for (marked, main) in [(0, true), (64, true), (255, false)] {
        let row = |what| Row { what, on: format!("{marked} pages marked"), goal: None, main };
        let board = || {
            let mut trio = Trio::start(SMALL);
            each!(trio, side => side.set_marked(&list(marked, 2)));
            trio
        };
        table.row(row("mark_cow, unmark_cow"), || (board(), Mark { page: page(marked | 1) }));
        table.row(row("is_cow"), || (board(), IsMarked { page: page(marked | 1) }));
    }
    for total in [LARGE, SMALL] {
        let row = Row { what: "the start", on: format!("{total} frames"), goal: None, main: true };
        table.row(row, || (used_board(total), Start { total }));
    }
}

/// Pages that fault, all below one table; as many as a small board has frames for.
fn batch(total: u64) -> u64 {
    if total == SMALL {
        8
    } else {
        64
    }
}

fn page(i: u64) -> u64 {
    0x2000_0000_0000 + i * PAGE
}

/// Every first page, or every second.
fn list(count: u64, step: u64) -> Vec<u64> {
    (0..count).map(|i| page(step * i)).collect()
}

/// The pages fault, then are unmapped and their frames freed, outside the timed part.
struct Demand {
    pages: u64,
    second: bool,
}

impl Work for Demand {
    fn round<S: Side>(&self, side: &mut S) -> f64 {
        mean_of(512 / self.pages, || {
            let time = match self.second {
                true => timed(self.pages, |i| side.second_fault(black_box(page(i)), ABSENT)),
                false => timed(self.pages, |i| side.fault(black_box(page(i)), ABSENT)),
            };
            for i in 0..self.pages {
                let frame = side.unmap_page(page(i)).expect("a page that faulted");
                side.deallocate_frame(frame);
            }
            time
        })
    }
}

/// The pages are copied. They are marked again before, outside the timed part, and others beside them.
struct Copy {
    pages: u64,
    list: Vec<u64>,
}

impl Work for Copy {
    fn round<S: Side>(&self, side: &mut S) -> f64 {
        mean_of(512 / self.pages, || {
            side.set_marked(&self.list);
            timed(self.pages, |i| side.fault(black_box(page(i)), PRESENT))
        })
    }
}

/// A board with the pages mapped, and with the tables above the temporary page.
fn copied_board(total: u64) -> Trio {
    let mut trio = Trio::start(total);
    each!(trio, side => {
        for i in 0..batch(total) {
            assert_eq!(side.fault(page(i), 4), Some(0));
        }
        assert_eq!(side.map_page(TEMPORARY, 0), Some(0));
        assert_eq!(side.unmap_page(TEMPORARY), Some(0));
    });
    trio
}

/// A page that is not marked, in the middle of those that are.
struct Mark {
    page: u64,
}

impl Work for Mark {
    fn round<S: Side>(&self, side: &mut S) -> f64 {
        timed(1000, |_| {
            side.mark_cow(black_box(self.page));
            side.unmark_cow(black_box(self.page))
        })
    }
}

struct IsMarked {
    page: u64,
}

impl Work for IsMarked {
    fn round<S: Side>(&self, side: &mut S) -> f64 {
        timed(1000, |_| side.is_cow(black_box(self.page)))
    }
}

/// A board with something in every part.
fn used_board(total: u64) -> Trio {
    let mut trio = Trio::start(total);
    each!(trio, side => {
        assert!(side.vmalloc(PAGE).is_some() && side.mmap(PAGE).is_some());
        side.mark_cow(page(0));
    });
    trio
}

/// A start on a board that stands.
struct Start {
    total: u64,
}

impl Work for Start {
    fn round<S: Side>(&self, side: &mut S) -> f64 {
        timed(200, |_| side.start(black_box(START), black_box(START + self.total * PAGE)))
    }
}
