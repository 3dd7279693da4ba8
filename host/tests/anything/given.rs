//! Calls that give frames back: what holds of each apart from the model, and how often things worth seeing came.

use crate::damage::walked;
use crate::found::{self, Event};
use crate::port::Port;
use crate::report::{holds, Report};
use crate::shot::Seen;
use calls::{Call, LAST, PAGE, TEMPORARY, USER_WINDOW};
use gadulnos::raw::{
    Frames, Kernel, Marked, Parts, Region, Slot, Told, User, LEVELS, MOST_LEVELS, SLOTS,
};
use std::collections::BTreeMap;
use trial::generate::Random;
use trial::state::bit;

/// How often each event came, by the levels of the board.
pub type Given = BTreeMap<(u64, Event), u64>;

/// An entry that names a frame off the board.
const OFF: u64 = 0x9999_9999_9001;

/// Each event comes at least so often on boards of four levels, and of five.
const LEAST: u64 = 3;

/// A board with frames to take and one marked page, which leads to a lent frame: by a leaf, by a HUGE entry below
/// which `unmap_page` finds another leaf or none, or by a root that leads to itself. At times the temporary page is
/// mapped.
pub fn to_copy(random: &mut Random, board: &mut Parts) {
    free_half(board);
    let Frames { start_frame, total, levels, .. } = board.frames();
    let any = walked(random, &board.words, board.frames(), board.root);
    let lent = [(); 2].map(|()| (start_frame + random.below(total)) << 12 | 7);
    let leaf = random.one_of(&[0, OFF, OFF, OFF, lent[0]]);
    let index = random.below(total.min(4));
    if random.chance(1, 3) {
        let at = led_to(random, board, TEMPORARY, 1);
        board.words[at] = random.one_of(&[lent[0], lent[1], OFF]);
    }
    let page = match random.below(6) {
        0 => {
            let root = board.root;
            board.words[((root - start_frame) * 512 + index) as usize] = root << 12 | 7;
            (1..=levels).fold(0, |addr, level| addr | index << (3 + 9 * level))
        }
        1..=3 => {
            let page = any >> 21 << 21 | index << 12;
            let at = led_to(random, board, page, 2);
            let table = random.below(total - index);
            board.words[at] = (start_frame + table) << 12 | 0x87;
            board.words[(table * 512 + index) as usize] = leaf;
            page
        }
        _ => {
            let at = led_to(random, board, any, 1);
            board.words[at] = lent[1];
            any >> 12 << 12
        }
    };
    let mut pages = [0; SLOTS];
    pages[0] = page;
    board.marked = Marked { count: 1, pages }.pack();
}

/// A region in either list, some of whose pages have one frame, a free one, one off the board or none; at times two
/// entries lead to their table, so that each page comes by twice.
pub fn to_release(random: &mut Random, board: &mut Parts) {
    let Frames { start_frame, total, .. } = board.frames();
    let any = walked(random, &board.words, board.frames(), board.root);
    let start = (any >> 21 << 21).min(LAST - (1 << 22));
    let at = led_to(random, board, start, 2);
    let table = random.below(total);
    board.words[at] = (start_frame + table) << 12 | 7;
    if at % 512 < 511 && random.chance(1, 2) {
        board.words[at + 1] = board.words[at];
    }
    let lent = [(); 2].map(|()| (start_frame + random.below(total)) << 12 | 7);
    for i in 0..8 {
        let word = random.one_of(&[lent[0], lent[0], lent[1], OFF, 0]);
        board.words[table as usize * 512 + i] = word;
    }
    let size = random.one_of(&[8 * PAGE, 1 << 21, 1 << 22]);
    let mut slots = [Slot { start: 0, size: 0, used: false }; SLOTS];
    slots[0] = Slot { start, size, used: true };
    board.kernel = Kernel { count: 1, slots }.pack();
    let mut slots = [Region { start: 0, size: 0, prot: 0, flags: 0 }; SLOTS];
    slots[0] = Region { start, size, prot: 3, flags: 0x22 };
    board.user = User { count: 1, next_addr: USER_WINDOW.0, slots }.pack();
}

/// The word of an address's entry on a level. Entries on the way that lead to no lent table are made to.
fn led_to(random: &mut Random, board: &mut Parts, virt: u64, to: u64) -> usize {
    let Frames { start_frame, total, levels, .. } = board.frames();
    let place = |table: u64, level| (table * 512 + (virt >> (3 + 9 * level)) % 512) as usize;
    let mut table = board.root - start_frame;
    for level in (to + 1..=levels).rev() {
        let word = &mut board.words[place(table, level)];
        table = ((*word & 0x000F_FFFF_FFFF_F000) >> 12).wrapping_sub(start_frame);
        if *word & 1 == 0 || table >= total {
            table = random.below(total);
            *word = (start_frame + table) << 12 | 7;
        }
    }
    place(table, to)
}

/// Frees the upper half of the frames, but for the root.
fn free_half(board: &mut Parts) {
    let mut record = board.frames();
    let root = (board.root - record.start_frame) as usize;
    let mut bitmap = gadulnos::raw::unpack_bitmap(&board.bits);
    for i in (record.total as usize / 2..record.total as usize).filter(|i| *i != root) {
        bitmap[i / 64] &= !(1 << (i % 64));
    }
    record.allocated = (0..record.total as usize).filter(|i| bit(&bitmap, *i)).count() as u64;
    *board.bits = gadulnos::raw::pack_bitmap(&bitmap);
    board.fields = record.pack();
}

/// What holds of a call that was made.
pub fn on_board(
    before: &Parts,
    port: &Port,
    call: &Call,
    told: Told,
    seen: &mut Seen,
) -> Result<(), String> {
    for event in found::check(before, port, call, told)? {
        *seen.given.entry((before.frames().levels, event)).or_default() += 1;
    }
    Ok(())
}

/// Prints how often each event came, and checks that each came often on either number of levels, unless the run was
/// a short one.
pub fn check(report: &mut Report, seen: &Seen, rounds: u64) {
    println!("  frames given back, by levels and what was met with: {:?}", seen.given);
    if rounds >= 2000 {
        report.check("anything: every event of giving frames back was met with", all(seen));
    }
}

fn all(seen: &Seen) -> Result<(), String> {
    for levels in [LEVELS, MOST_LEVELS] {
        for event in Event::all() {
            let times = seen.given.get(&(levels, event)).copied().unwrap_or(0);
            let wanted = format!("{event:?} on {levels} levels {LEAST} times, not {times}");
            holds(times >= LEAST, &wanted)?;
        }
    }
    Ok(())
}
