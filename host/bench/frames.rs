//! Frames: taken, freed and counted.

use crate::sides::Side;
use crate::table::{mean_of, timed, Row, Table, Work};
use crate::trio::{each, Trio, FIRST};
use crate::{LARGE, SMALL};
use std::hint::black_box;

/// Against the Rust, which tests nothing.
const GOAL: Option<f64> = Some(5.0);

pub fn rows(table: &mut Table) {
    for (total, marked, main) in [
        (LARGE, 1, true),
        (LARGE, 8191, true),
        (SMALL, 1, true),
        (LARGE, 64, false),
        (LARGE, 1000, false),
        (LARGE, 4000, false),
    ] {
        let row = Row { what: "take a frame, free it", on: on(total, marked), goal: GOAL, main };
        let calls = if marked > 100 { 200 } else { 2000 };
        table.row(row, || (marked_board(total, marked), TakeAndFree { calls }));
    }
    for (total, marked, batch, main) in [
        (LARGE, 65, 64, true),
        (LARGE, 8191, 64, true),
        (SMALL, 9, 8, true),
        (LARGE, 1000, 64, false),
        (LARGE, 4000, 64, false),
    ] {
        let row = Row { what: "free a frame", on: on(total, marked), goal: GOAL, main };
        table.row(row, || (marked_board(total, marked), Free { marked, batch }));
    }
    for (total, marked, main) in [(LARGE, 1, true), (SMALL, 1, true), (LARGE, 8191, false)] {
        let row = Row { what: "count the marked frames", on: on(total, marked), goal: GOAL, main };
        table.row(row, || (marked_board(total, marked), Count));
    }
}

fn on(total: u64, marked: u64) -> String {
    format!("{total} frames, {marked} marked")
}

/// A board with the lowest frames marked.
pub fn marked_board(total: u64, marked: u64) -> Trio {
    let mut trio = Trio::start(total);
    each!(trio, side => side.set_frames(marked));
    trio
}

struct TakeAndFree {
    calls: u64,
}

impl Work for TakeAndFree {
    fn round<S: Side>(&self, side: &mut S) -> f64 {
        timed(self.calls, |_| {
            let frame = side.allocate_frame().unwrap_or(0);
            side.deallocate_frame(black_box(frame))
        })
    }
}

/// The highest marked frames are freed, one after the other. They are marked again outside the timed
/// part.
struct Free {
    marked: u64,
    batch: u64,
}

impl Work for Free {
    fn round<S: Side>(&self, side: &mut S) -> f64 {
        let last = FIRST + self.marked - 1;
        mean_of(512 / self.batch, || {
            let time = timed(self.batch, |i| side.deallocate_frame(black_box(last - i)));
            for i in (0..self.batch).rev() {
                side.mark_allocated(last - i);
            }
            time
        })
    }
}

struct Count;

impl Work for Count {
    fn round<S: Side>(&self, side: &mut S) -> f64 {
        timed(2000, |_| black_box(&*side).allocated_frames())
    }
}
