//! Changes to a board's parts: odd ones, which leave every record sound, and broken ones.

use crate::boards::{any_levels, FRAMES_END};
use crate::broken::broken;
use crate::given;
use calls::{KERNEL_WINDOW, LAST, PAGE, TEMPORARY, USER_WINDOW};
use gadulnos::raw::{
    Frames, Kernel, Marked, Parts, Region, Slot, User, LEVELS, MOST_LEVELS, SLOTS,
};
use trial::generate::Random;
use trial::state::bit;

const WRITABLE: u64 = 2;
const USER: u64 = 4;

/// What is done to a board.
#[derive(Clone, Copy, PartialEq, Eq)]
pub enum Kind {
    Odd,
    /// Odd, then one part broken, at times two.
    Broken,
    /// Parts of other lengths, but for the bitmap, which has its length by its type.
    Lengths,
    /// A few bytes and words changed, whatever they are.
    Bytes,
    Rubbish,
}

impl Kind {
    pub const ALL: [Kind; 5] = [Kind::Odd, Kind::Broken, Kind::Lengths, Kind::Bytes, Kind::Rubbish];

    pub fn name(self) -> &'static str {
        match self {
            Kind::Odd => "odd words, marks, roots and lists",
            Kind::Broken => "records with a broken part",
            Kind::Lengths => "parts of every length",
            Kind::Bytes => "damaged bytes and words",
            Kind::Rubbish => "random bytes and words",
        }
    }

    /// How many of a hundred rounds are of this kind.
    pub fn share(self) -> u64 {
        match self {
            Kind::Odd => 50,
            Kind::Broken => 20,
            Kind::Lengths => 10,
            Kind::Bytes => 15,
            Kind::Rubbish => 5,
        }
    }

    pub fn apply(self, random: &mut Random, board: &mut Parts) {
        if self != Kind::Rubbish {
            (0..random.below(5)).for_each(|_| odd(random, board));
        }
        match self {
            Kind::Odd => {}
            Kind::Broken => (0..1 + random.below(4) / 3).for_each(|_| broken(random, board)),
            Kind::Lengths => lengths(random, board),
            Kind::Bytes => (0..1 + random.below(4)).for_each(|_| any_byte(random, board)),
            Kind::Rubbish => rubbish(random, board),
        }
    }
}

/// A change that leaves every record sound.
fn odd(random: &mut Random, board: &mut Parts) {
    match random.below(16) {
        0..=2 => entries(random, board),
        10 | 11 => rights(random, board),
        12 => looped(random, board),
        13 | 14 => given::to_copy(random, board),
        15 => given::to_release(random, board),
        3 => marks(random, board),
        4 => {
            let Frames { start_frame, total, .. } = board.frames();
            board.root = start_frame + random.below(total);
        }
        5 => board.kernel = kernel(random, board).pack(),
        6 => board.user = user(random, board).pack(),
        7 => board.marked = marked(random, board).pack(),
        8 => {
            // Tables that were made for the other number of levels.
            let record = board.frames();
            let levels = LEVELS + MOST_LEVELS - record.levels;
            board.fields = Frames { levels, ..record }.pack();
        }
        _ => {
            let extra = random.one_of(&[1, 511, 700]);
            board.words.extend((0..extra).map(|_| random.word()));
        }
    }
}

/// A few entries, or one or all frames full of them.
fn entries(random: &mut Random, board: &mut Parts) {
    let Frames { start_frame, total, .. } = board.frames();
    let lent = total as usize * 512;
    match random.below(8) {
        0 => {
            let one_in = random.one_of(&[1, 2, 8, 64]);
            for word in &mut board.words[..lent] {
                *word = any_word(random, one_in, start_frame, total);
            }
        }
        1 | 2 => {
            let one_in = random.one_of(&[1, 2, 8, 64]);
            let first = random.below(total) as usize * 512;
            for word in &mut board.words[first..first + 512] {
                *word = any_word(random, one_in, start_frame, total);
            }
        }
        _ => {
            for _ in 0..1 + random.below(12) {
                let frame = random.below(total.min(12)) as usize;
                let any = random.below(512) as usize;
                let index = random.one_of(&[0, 0, 1, 32, 256, 511, any]);
                board.words[frame * 512 + index] = any_word(random, 1, start_frame, total);
            }
        }
    }
}

/// USER and WRITABLE in every entry that is present, but for a few on the way to a page, so that one of them
/// decides what user code may.
fn rights(random: &mut Random, board: &mut Parts) {
    let (frames, root) = (board.frames(), board.root);
    let lent = frames.total as usize * 512;
    for word in board.words[..lent].iter_mut().filter(|word| **word & 1 == 1) {
        *word |= USER | WRITABLE;
    }
    for _ in 0..1 + random.below(2) {
        let virt = walked(random, &board.words, frames, root);
        let level = 1 + random.below(frames.levels);
        if let Some(place) = place(&board.words, frames, root, virt, level) {
            board.words[place] &= !random.one_of(&[USER, WRITABLE, WRITABLE, USER | WRITABLE]);
        }
    }
}

/// A way that leads back: the last table of some pages is one of those above them, whose entries are these pages'
/// own too. A region lies over them.
fn looped(random: &mut Random, board: &mut Parts) {
    let (frames, root) = (board.frames(), board.root);
    let virt = walked(random, &board.words, frames, root);
    let above = 2 + random.below(frames.levels - 1);
    let places = [2, above].map(|level| place(&board.words, frames, root, virt, level));
    if let [Some(entry), Some(led_to)] = places {
        let table = frames.start_frame + led_to as u64 / 512;
        board.words[entry] = table << 12 | random.one_of(&[3, 7, 0x87]);
    }
    let start = (virt & !((1 << 21) - 1)).min(LAST - PAGE);
    let size = random.one_of(&[20 * PAGE, 1 << 21, 1 << 22, 1 << 30]).min(LAST - start);
    let region = Region { start, size, prot: random.word() as i32, flags: 0x22 };
    let mut slots = [Region { start: 0, size: 0, prot: 0, flags: 0 }; SLOTS];
    slots[0] = region;
    board.user = User { count: 1, next_addr: USER_WINDOW.0, slots }.pack();
}

/// The word of an address's entry on a level, if its way leads there.
fn place(words: &[u64], frames: Frames, root: u64, virt: u64, to: u64) -> Option<usize> {
    let mut table = root;
    for level in (to..=frames.levels).rev() {
        let frame = table.checked_sub(frames.start_frame).filter(|frame| *frame < frames.total)?;
        let place = frame as usize * 512 + (virt >> (3 + 9 * level)) as usize % 512;
        if level == to {
            return Some(place);
        }
        table = (words[place] & 0x000F_FFFF_FFFF_F000) >> 12;
    }
    None
}

/// An entry once in so many words, else an absent one. Most entries lead to lent frames.
fn any_word(random: &mut Random, one_in: u64, start: u64, total: u64) -> u64 {
    if !random.chance(1, one_in) {
        return random.word() & !1 & random.one_of(&[0, u64::MAX]);
    }
    let frame = match random.below(12) {
        0 => random.one_of(&[start.wrapping_sub(1), start + total, 0, FRAMES_END - 1]),
        1 => random.word(),
        _ => start + random.below(total),
    };
    let flags = match random.below(4) {
        0 => random.word() & 0xFFF0_0000_0000_0FFF,
        _ => random.one_of(&[1, 3, 5, 7, 0x81, 0x87]),
    };
    (frame & (FRAMES_END - 1)) << 12 | flags | 1
}

/// Other marks, also past the frames; the counter follows.
fn marks(random: &mut Random, board: &mut Parts) {
    let mut bitmap = gadulnos::raw::unpack_bitmap(&board.bits);
    let mut record = board.frames();
    match random.below(4) {
        0 => bitmap.fill_with(|| random.word()),
        1 => bitmap.fill(random.one_of(&[0, u64::MAX])),
        _ => {
            for _ in 0..1 + random.below(6) {
                let index = random.below(record.total + 2).min(8191) as usize;
                bitmap[index / 64] ^= 1 << (index % 64);
            }
        }
    }
    record.allocated = (0..record.total as usize).filter(|&i| bit(&bitmap, i)).count() as u64;
    *board.bits = gadulnos::raw::pack_bitmap(&bitmap);
    board.fields = record.pack();
}

/// A region that is well placed: of a few pages where something is mapped or in a window, or a large
/// one, up to nearly 2^64 bytes.
fn region(random: &mut Random, board: &Parts) -> (u64, u64) {
    let near = match random.below(5) {
        0 | 1 => walked(random, &board.words, board.frames(), board.root),
        2 => KERNEL_WINDOW.0,
        3 => USER_WINDOW.0,
        _ => random.word() >> random.below(52),
    };
    let pages = random.below(4) * random.below(8);
    let start = (near & !(PAGE - 1)).wrapping_sub(pages * PAGE).min(LAST - PAGE);
    let room = LAST - start;
    let size = match random.below(8) {
        0 => room,
        1 => (random.word() >> random.below(52)) & !(PAGE - 1),
        2 => random.one_of(&[1 << 21, 1 << 30, 1 << 39, 1 << 47, 1 << 48, 1 << 56]),
        _ => (1 + random.below(20)) * PAGE,
    };
    (start, size.clamp(PAGE, room))
}

/// An address whose indices lead along present entries, as far as there are any, under any of the bits
/// that are ignored.
pub fn walked(random: &mut Random, words: &[u64], frames: Frames, root: u64) -> u64 {
    let Frames { start_frame, total, levels, .. } = frames;
    let levels = levels.min(MOST_LEVELS);
    let any = random.word();
    let mut addr = random.one_of(&[0, 0, u64::MAX, any]) << (12 + 9 * levels);
    let mut table = root;
    for level in (1..=levels).rev() {
        let index = table.wrapping_sub(start_frame);
        let first = index.min(total).saturating_mul(512) as usize;
        let words = match index < total {
            true => words.get(first..first.saturating_add(512)).unwrap_or_default(),
            false => &[],
        };
        let first = random.below(512) as usize;
        let found = (0..words.len()).map(|k| (first + k) % 512).find(|&i| words[i] & 1 == 1);
        addr |= (found.unwrap_or(first) as u64) << (3 + 9 * level);
        table = found.map_or(u64::MAX, |i| (words[i] & 0x000F_FFFF_FFFF_F000) >> 12);
    }
    addr
}

/// How many entries a list has: few, or nearly or just as many as it can.
fn length(random: &mut Random) -> usize {
    random.one_of(&[0, 1, 2, 3, 5, 8, 100, 254, 255, 256, 256])
}

/// Any well placed regions in any order, overlapping or not.
fn kernel(random: &mut Random, board: &Parts) -> Kernel {
    let mut slots = [Slot { start: 0, size: 0, used: false }; SLOTS];
    let count = length(random);
    for slot in &mut slots[..count] {
        let (start, size) = region(random, board);
        *slot = Slot { start, size, used: random.chance(2, 3) };
    }
    // Runs of neighbours, so that they merge.
    for i in 1..count {
        let Slot { start, size, .. } = slots[i - 1];
        if random.chance(1, 2) && start + size < LAST {
            let size = slots[i].size.min(LAST - (start + size));
            slots[i] = Slot { start: start + slots[i - 1].size, size, ..slots[i] };
        }
    }
    Kernel { count: count as u64, slots }
}

/// Any well placed regions, strictly rising, with rubbish in the slots past them. In a long list most
/// have pages of their own, so that it comes to 256.
fn user(random: &mut Random, board: &Parts) -> User {
    let count = length(random) as u64;
    let mut regions: Vec<Region> = Vec::new();
    for k in 0..count {
        let (start, size) = match count > 200 && !random.chance(1, 30) {
            true => (USER_WINDOW.0 + (1 << 40) + 2 * k * PAGE, PAGE),
            false => region(random, board),
        };
        let (prot, flags) = (random.word() as i32, random.word() as i32);
        regions.push(Region { start, size, prot, flags });
    }
    regions.sort_by_key(|region| region.start);
    regions.dedup_by_key(|region| region.start);
    let mut slots = [Region { start: 0, size: 0, prot: 0, flags: 0 }; SLOTS];
    if random.chance(1, 2) {
        slots.fill_with(|| {
            let (start, size, prot) = (random.word(), random.word(), random.word() as i32);
            Region { start, size, prot, flags: !prot }
        });
    }
    slots[..regions.len()].copy_from_slice(&regions);
    let any = random.word();
    let next_addr = random.one_of(&[USER_WINDOW.0, USER_WINDOW.1, LAST, 0, any]) & !(PAGE - 1);
    User { count: regions.len() as u64, next_addr, slots }
}

/// Any numbers that rise, pages or not, with rubbish in the slots past them.
fn marked(random: &mut Random, board: &Parts) -> Marked {
    let count = length(random) as u64;
    let mut pages: Vec<u64> = Vec::new();
    for k in 0..count {
        pages.push(match random.below(6) {
            _ if count > 200 && !random.chance(1, 30) => USER_WINDOW.0 + k * PAGE,
            0..=3 => walked(random, &board.words, board.frames(), board.root) & !(PAGE - 1),
            4 => random.one_of(&[TEMPORARY, 0, LAST, u64::MAX]),
            _ => random.word(),
        });
    }
    pages.sort_unstable();
    pages.dedup();
    let mut slots = [0; SLOTS];
    if random.chance(1, 2) {
        slots.fill_with(|| random.word());
    }
    slots[..pages.len()].copy_from_slice(&pages);
    Marked { count: pages.len() as u64, pages: slots }
}

/// Other lengths for some parts: none, one short, one long, or any.
fn lengths(random: &mut Random, board: &mut Parts) {
    let mut which = random.word();
    let mut other = |length: usize| {
        which >>= 3;
        match which & 7 {
            0..=4 => length,
            _ => random.one_of(&[0, length.saturating_sub(1), length + 1, length / 2, 2 * length]),
        }
    };
    let words = other(board.words.len());
    board.words.resize(words, 7);
    let Parts { fields, kernel, user, marked, .. } = board;
    for part in [fields, kernel, user, marked] {
        let length = other(part.len());
        part.resize(length, 0);
    }
}

/// A byte of a part, or a word, made any.
fn any_byte(random: &mut Random, board: &mut Parts) {
    let Parts { words, fields, bits, kernel, user, marked, .. } = board;
    let part: &mut [u8] = match random.below(6) {
        0 => fields,
        1 => &mut bits[..],
        2 => kernel,
        3 => user,
        4 => marked,
        _ => {
            let at = random.below(words.len() as u64) as usize;
            words[at] ^= 1 << random.below(64);
            return;
        }
    };
    let near = if random.chance(1, 2) { part.len() } else { 40 };
    let at = random.below(near.min(part.len()) as u64) as usize;
    part[at] = match random.chance(1, 2) {
        true => part[at] ^ 1 << random.below(8),
        false => random.word() as u8,
    };
}

/// Nothing but random bytes and words; at times of the right lengths.
fn rubbish(random: &mut Random, board: &mut Parts) {
    let right = random.chance(2, 3);
    let mut length = |length: usize| match right {
        true => length,
        false => random.below(2 * length as u64 + 2) as usize,
    };
    board.words.resize(length(512 * 4), 0);
    let Parts { words, fields, bits, kernel, user, marked, .. } = board;
    for part in [&mut *fields, &mut *kernel, &mut *user, &mut *marked] {
        let length = length(part.len());
        part.resize(length, 0);
    }
    words.fill_with(|| random.word());
    for part in [&mut fields[..], &mut bits[..], kernel, user, marked] {
        part.fill_with(|| random.word() as u8);
    }
    board.root = random.word() >> random.below(64);
    if random.chance(1, 2) {
        let total = random.below(5);
        let start_frame = random.word() >> 25;
        let (allocated, levels) = (random.below(total + 1), any_levels(random));
        board.fields = Frames { start_frame, total, allocated, levels }.pack();
        board.root = start_frame + random.below(total + 1);
    }
}
