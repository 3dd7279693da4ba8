//! Records broken in each of the ways that document 01 lists.

use crate::boards::FRAMES_END;
use calls::{LAST, PAGE};
use gadulnos::raw::{Frames, Kernel, Marked, Parts, Region, Slot, User};
use trial::generate::Random;

/// Breaks a part, mostly: total above 8192, lent words too few, frames ending above 2^52, root
/// outside, another counter, other levels, or a list.
pub fn broken(random: &mut Random, board: &mut Parts) {
    let mut record = board.frames();
    let Frames { start_frame, total, allocated, levels } = record;
    match random.below(9) {
        0 => {
            let whole = (total * 512) as usize;
            let any = random.below(whole as u64) as usize;
            board.words.truncate(random.one_of(&[whole - 1, whole - 512, 0, any]));
        }
        1 => {
            let wrong = [allocated + 1, allocated.wrapping_sub(1), total + 1, 1 << 63, u64::MAX];
            record.allocated = random.one_of(&wrong);
            board.fields = record.pack();
        }
        2 => {
            let outside = [start_frame.wrapping_sub(1), start_frame + total, u64::MAX];
            board.root = random.one_of(&outside);
        }
        3 => {
            record.total = random.one_of(&[8193, 8194, 1 << 40, 1 << 55, u64::MAX, total + 1, 0]);
            board.fields = record.pack();
        }
        4 => {
            let high = FRAMES_END - total.min(8192) + 1;
            record.start_frame = random.one_of(&[high, 1 << 52, u64::MAX - total, u64::MAX]);
            board.fields = record.pack();
            board.root = record.start_frame;
        }
        5 => {
            let small = random.one_of(&[0, 1, 2, 3, 6, 7]);
            let high = levels.wrapping_add(1 << (8 * (1 + random.below(7))));
            record.levels = random.one_of(&[small, small, high, levels << 8, 1 << 63, u64::MAX]);
            board.fields = record.pack();
        }
        6 => broken_kernel(random, board),
        7 => broken_user(random, board),
        _ => broken_marked(random, board),
    }
}

/// A start and size that are not well placed.
fn misplaced(random: &mut Random, start: u64, size: u64) -> (u64, u64) {
    let odd = 1 + random.below(PAGE - 1);
    match random.below(6) {
        0 => (start | odd, size),
        1 => (start, size.wrapping_add(odd)),
        2 => (start, 0),
        3 => (LAST, PAGE),
        4 => (start, (LAST - start).wrapping_add(PAGE)),
        _ => (PAGE, u64::MAX - PAGE + 1),
    }
}

fn broken_kernel(random: &mut Random, board: &mut Parts) {
    let mut list = match Kernel::unpack(&board.kernel) {
        Some(list) => list,
        None => return,
    };
    let count = list.count.min(256);
    let at = random.below(count.max(1)) as usize;
    match random.below(4) {
        0 => list.count = random.one_of(&[257, 258, 1 << 32, 1 << 63, u64::MAX, count + 1]),
        1 if count < 256 => {
            let past = (count + random.below(256 - count)) as usize;
            list.slots[past] = random.one_of(&[
                Slot { start: PAGE, size: 0, used: false },
                Slot { start: 0, size: 1, used: false },
                Slot { start: 0, size: 0, used: true },
            ]);
        }
        2 => {
            let at = random.one_of(&[at, 255]);
            board.kernel[24 + 24 * at..][..8].copy_from_slice(&random.word().to_le_bytes());
            return;
        }
        _ => {
            let (start, size) = misplaced(random, list.slots[at].start, list.slots[at].size);
            list.slots[at] = Slot { start, size, ..list.slots[at] };
        }
    }
    board.kernel = list.pack();
}

fn broken_user(random: &mut Random, board: &mut Parts) {
    let mut list = match User::unpack(&board.user) {
        Some(list) => list,
        None => return,
    };
    let count = list.count.min(256);
    let at = random.below(count.max(1)) as usize;
    match random.below(5) {
        0 => list.count = random.one_of(&[257, 258, 1 << 32, 1 << 63, u64::MAX, count + 1]),
        1 => list.next_addr = list.next_addr.wrapping_add(1 + random.below(PAGE - 1)),
        2 if count > 1 => {
            let other = (at + 1) % count as usize;
            list.slots.swap(at, other);
        }
        3 if count > 1 => list.slots[at] = list.slots[(at + 1) % count as usize],
        _ => {
            let (start, size) = misplaced(random, list.slots[at].start, list.slots[at].size);
            list.slots[at] = Region { start, size, ..list.slots[at] };
        }
    }
    board.user = list.pack();
}

fn broken_marked(random: &mut Random, board: &mut Parts) {
    let mut list = match Marked::unpack(&board.marked) {
        Some(list) => list,
        None => return,
    };
    let count = list.count.min(256) as usize;
    match random.below(3) {
        1 if count > 1 => list.pages.swap(0, count - 1),
        2 if count > 1 => list.pages[count - 1] = list.pages[count - 2],
        _ => list.count = random.one_of(&[257, 258, 1 << 32, 1 << 63, u64::MAX]),
    }
    board.marked = list.pack();
}
