//! The walks and the mapper's calls, with their tables there, a translation with its working and the user
//! question; two of them on five levels too, without the Rust.

use crate::sides::Side;
use crate::table::{mean_of, timed, Row, Table, Work};
use crate::trio::{each, Trio, FIRST};
use crate::{LARGE, SMALL};
use calls::PAGE;
use gadulnos::raw::{LEVELS, MOST_LEVELS};
use std::hint::black_box;

/// Pages that are mapped and unmapped: all the entries of one table.
const PAGES: u64 = 512;

/// How often a round maps all the pages and unmaps them.
const CYCLES: u64 = 4;

pub fn rows(table: &mut Table) {
    for (total, main) in [(LARGE, true), (SMALL, true), (1024, false)] {
        let on = format!("{total} frames, tables there");
        let row = |what, goal| Row { what, on: on.clone(), goal, main };
        let map_goal = if total == SMALL { 3.0 } else { 5.0 };
        let board = || mapped(total, LEVELS);
        table.row(row("translate", Some(1.3)), || (board(), Translate));
        table.row(row("the user question", None), || (board(), Question));
        table.row(row("map_page", Some(map_goal)), || (board(), Map { is_timed: true }));
        table.row(row("unmap_page", Some(1.3)), || (board(), Map { is_timed: false }));
    }
    let on = format!("{LARGE} frames, tables there");
    let row = Row { what: "translate with its working", on, goal: None, main: true };
    table.row(row, || (mapped(LARGE, LEVELS), Show));
    let on = format!("{LARGE} frames, five levels, tables there");
    let row = |what| Row { what, on: on.clone(), goal: None, main: true };
    let board = || mapped(LARGE, MOST_LEVELS);
    table.row(row("translate"), || (board(), Translate));
    table.row(row("map_page"), || (board(), Map { is_timed: true }));
    for (total, pages, goal) in [(LARGE, 64, 5.0), (SMALL, 8, 3.0)] {
        for (size, gigabyte) in [("2 MiB", false), ("1 GiB", true)] {
            let on = format!("{size}, {total} frames, tables there");
            let row = Row { what: "map_huge_page", on, goal: Some(goal), main: true };
            table.row(row, || huge(total, pages, gigabyte));
        }
    }
}

fn page(i: u64) -> u64 {
    0x1000_0000_0000 + i % PAGES * PAGE
}

fn target(i: u64) -> u64 {
    (i + 1) << 21
}

/// A board with all the pages mapped.
fn mapped(total: u64, levels: u64) -> Trio {
    let mut trio = Trio::start_levels(total, levels);
    each!(trio, side => for i in 0..PAGES {
        assert_eq!(side.map_page(page(i), target(i)), Some(0));
    });
    trio
}

struct Translate;

impl Work for Translate {
    fn round<S: Side>(&self, side: &mut S) -> f64 {
        timed(4096, |i| side.translate(black_box(page(i) + 5)))
    }
}

struct Show;

impl Work for Show {
    const IN_RUST: bool = false;

    fn round<S: Side>(&self, side: &mut S) -> f64 {
        timed(4096, |i| side.show_translate(black_box(page(i) + 5)))
    }
}

struct Question;

impl Work for Question {
    const IN_RUST: bool = false;

    fn round<S: Side>(&self, side: &mut S) -> f64 {
        timed(4096, |i| side.user_may(black_box(page(i) + 5), black_box(true)))
    }
}

/// Each round unmaps all the pages and maps them again. One of the two is what counts.
struct Map {
    is_timed: bool,
}

impl Work for Map {
    fn round<S: Side>(&self, side: &mut S) -> f64 {
        mean_of(CYCLES, || {
            let unmapped = timed(PAGES, |i| side.unmap_page(black_box(page(i))));
            let mapped = timed(PAGES, |i| side.map_page(black_box(page(i)), black_box(target(i))));
            if self.is_timed {
                mapped
            } else {
                unmapped
            }
        })
    }
}

/// Huge pages, each below a table of its own. Their entries are cleared outside the timed part.
struct Huge {
    gigabyte: bool,
    /// Addresses, and the words of their entries.
    pages: Vec<(u64, usize)>,
}

fn huge(total: u64, pages: u64, gigabyte: bool) -> (Trio, Huge) {
    let mut trio = Trio::start(total);
    let width = if gigabyte { 30 } else { 21 };
    let virts: Vec<u64> = (0..pages).map(|i| 0x3000_0000_0000 + (i << width)).collect();
    each!(trio, side => for virt in &virts {
        assert_eq!(side.map_huge_page(*virt, 1 << 30, gigabyte), Some(0));
    });
    let depth = if gigabyte { 2 } else { 3 };
    let place = |virt| (virt, entry_word(&trio.port.board.words, virt, depth));
    let pages: Vec<(u64, usize)> = virts.into_iter().map(place).collect();
    each!(trio, side => pages.iter().for_each(|(_, word)| side.words_mut()[*word] = 0));
    (trio, Huge { gigabyte, pages })
}

/// The word of an address's entry below so many tables, all of them there; the root is the first frame.
fn entry_word(words: &[u64], virt: u64, depth: u32) -> usize {
    let index = |level: u32| (virt >> (39 - 9 * level)) as usize % 512;
    let below = |table: usize, level| {
        let entry = words[table * 512 + index(level)];
        ((entry & 0x000F_FFFF_FFFF_F000) / PAGE - FIRST) as usize
    };
    (0..depth).fold(0, below) * 512 + index(depth)
}

impl Work for Huge {
    fn round<S: Side>(&self, side: &mut S) -> f64 {
        let count = self.pages.len() as u64;
        mean_of(512 / count, || {
            let time = timed(count, |i| {
                let (virt, _) = self.pages[i as usize];
                side.map_huge_page(black_box(virt), black_box(1 << 30), self.gigabyte)
            });
            for (_, word) in &self.pages {
                side.words_mut()[*word] = 0;
            }
            time
        })
    }
}
