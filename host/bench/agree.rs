//! `same` beside the port: random calls on boards of four and of five levels that calls led to, on boards
//! near them, and on damaged parts. Answers and all parts must be equal, so that what the rows compare does
//! the same work.

use crate::same;
use crate::trio::{alike, state};
use calls::{user, writable, Call, KERNEL_WINDOW, PAGE, USER_WINDOW};
use gadulnos::raw::{
    self, Found, Frames, Kernel, Line, Marked, Parts, Region, Slot, User, LEVELS, MOST_LEVELS,
    SHOWN_NUMBERS,
};
use trial::generate::{Generator, Perturbed, Profile, Random};

const SEQUENCES: u64 = 1500;

/// A number and a value, or a number and what was found of frames.
type Told = [u64; 4];

fn line(line: Line) -> Told {
    [line.number, line.value, 0, 0]
}

fn found(found: Found) -> Told {
    [found.number, found.freed, found.already_free, found.not_here]
}

/// The answers of a call, and of the counts all three.
macro_rules! player {
    ($name:ident, $calls:ident) => {
        pub fn $name(board: &mut Parts, call: &Call) -> [Told; 3] {
            let Frames { start_frame: first, total, levels, .. } = board.frames();
            let Parts { words, fields, bits, root, kernel, user: list, marked } = board;
            let root = *root;
            let one = match *call {
                Call::Vfree { addr } => {
                    return [found($calls::vfree(words, fields, bits, root, kernel, addr)); 3]
                }
                Call::Munmap { addr, size } => {
                    return [found($calls::munmap(words, fields, bits, root, list, addr, size)); 3]
                }
                Call::Fault { addr, code } => {
                    let (list, call) = (marked, $calls::handle_page_fault);
                    return [found(call(words, fields, bits, root, list, addr, code)); 3];
                }
                Call::Vmalloc { size } => $calls::vmalloc(words, fields, bits, root, kernel, size),
                Call::Mmap { given, addr, size, prot, flags } => {
                    $calls::mmap(words, fields, bits, root, list, given, addr, size, prot, flags)
                }
                Call::SecondFault { addr, code } => {
                    $calls::handle_page_fault_second(words, fields, bits, root, addr, code)
                }
                Call::Translate { addr } => {
                    $calls::translate(words, first, total, levels, root, addr)
                }
                Call::MapPage { virt, phys, flags } => {
                    let (w, u) = (writable(flags), user(flags));
                    $calls::map_page(words, fields, bits, root, virt, phys, w, u)
                }
                Call::UnmapPage { virt } => {
                    $calls::unmap_page(words, first, total, levels, root, virt)
                }
                Call::MapHugePage { virt, phys, gigabyte, flags } => {
                    let (w, u) = (writable(flags), user(flags));
                    $calls::map_huge_page(words, fields, bits, root, virt, phys, gigabyte, w, u)
                }
                Call::MarkCow { addr } => $calls::mark_cow(marked, addr),
                Call::UnmarkCow { addr } => $calls::unmark_cow(marked, addr),
                Call::IsCow { addr } => $calls::is_cow(marked, addr),
                Call::AllocateFrame => $calls::allocate_frame(fields, bits),
                Call::DeallocateFrame { frame } => $calls::deallocate_frame(fields, bits, frame),
                Call::MarkAllocated { frame } => $calls::mark_allocated(fields, bits, frame),
                Call::IsAllocated { frame } => $calls::is_allocated(fields, bits, frame),
                Call::Counts => {
                    return [
                        $calls::free_frames(fields, bits),
                        $calls::allocated_frames(fields, bits),
                        $calls::total_frames(fields, bits),
                    ]
                    .map(line)
                }
                Call::Mprotect { addr, size, prot } => {
                    $calls::mprotect(words, first, total, levels, root, list, addr, size, prot)
                }
                Call::UserMay { addr, write } => {
                    $calls::user_may(words, first, total, levels, root, addr, write)
                }
                // On numbers alone: no row has it.
                Call::IsVmallocAddr { .. } => Line::met(0),
            };
            [line(one); 3]
        }
    };
}

player!(on_port, raw);
player!(on_same, same);

fn copy(board: &Parts) -> Parts {
    Parts {
        words: board.words.clone(),
        fields: board.fields.clone(),
        bits: board.bits.clone(),
        root: board.root,
        kernel: board.kernel.clone(),
        user: board.user.clone(),
        marked: board.marked.clone(),
    }
}

/// The search on both, and how many regions it compared.
fn search(random: &mut Random, port: &Parts, same: &Parts) -> Result<(), String> {
    let size = random.one_of(&[0, 1, PAGE, 8 * PAGE, USER_WINDOW.1 - USER_WINDOW.0, u64::MAX]);
    let (mut compared, mut counted) = (7, 7);
    let one = raw::find_free_region(&port.user, size, &mut compared);
    let other = same::find_free_region(&same.user, size, &mut counted);
    match (one, compared) == (other, counted) {
        true => Ok(()),
        false => Err(format!("search {size:x}: {one:?} {compared} and {other:?} {counted}")),
    }
}

/// The working of a translation on both, whatever stood in its numbers before.
fn show(port: &Parts, same: &Parts, virt: u64) -> Result<(), String> {
    let Frames { start_frame: first, total, levels, .. } = port.frames();
    let (mut shown, mut wanted) = ([7; SHOWN_NUMBERS], [8; SHOWN_NUMBERS]);
    let (words, root) = (&port.words, port.root);
    let one = raw::show_translate(words, first, total, levels, root, virt, &mut shown);
    let (words, root) = (&same.words, same.root);
    let other = same::show_translate(words, first, total, levels, root, virt, &mut wanted);
    match (one, shown) == (other, wanted) {
        true => Ok(()),
        false => Err(format!("show {virt:x}: {one:?} {shown:x?} and {other:?} {wanted:x?}")),
    }
}

/// Whether user code may read an address, and write it, on both.
fn question(port: &Parts, same: &Parts, virt: u64) -> Result<(), String> {
    let Frames { start_frame: first, total, levels, .. } = port.frames();
    for write in [false, true] {
        let one = raw::user_may(&port.words, first, total, levels, port.root, virt, write);
        let other = same::user_may(&same.words, first, total, levels, same.root, virt, write);
        if one != other {
            return Err(format!("user_may {virt:x} {write}: {one:?} and {other:?}"));
        }
    }
    Ok(())
}

/// A call on both, which must leave both alike. Of an address that it names to walk to the working is shown, and
/// the user question asked.
fn both(port: &mut Parts, same: &mut Parts, call: &Call) -> Result<(), String> {
    let (one, other) = (on_port(port, call), on_same(same, call));
    if one != other {
        return Err(format!("{call}: {one:?} and {other:?}"));
    }
    alike(port, same).map_err(|part| format!("{call}: {part}"))?;
    match *call {
        Call::Translate { addr: virt }
        | Call::UnmapPage { virt }
        | Call::MapPage { virt, .. }
        | Call::MapHugePage { virt, .. }
        | Call::Mmap { addr: virt, .. }
        | Call::Munmap { addr: virt, .. }
        | Call::Mprotect { addr: virt, .. }
        | Call::Fault { addr: virt, .. }
        | Call::SecondFault { addr: virt, .. } => {
            show(port, same, virt)?;
            question(port, same, virt)
        }
        _ => Ok(()),
    }
}

/// A start on both, of so many levels if they are named, whatever the parts hold.
fn start(
    port: &mut Parts,
    same: &mut Parts,
    (from, to): (u64, u64),
    levels: Option<u64>,
) -> Result<(), String> {
    let Parts { words, fields, bits, root, kernel, user, marked } = same;
    let (one, other) = match levels {
        None => (
            port.start(from, to),
            same::start(words, fields, bits, root, kernel, user, marked, from, to),
        ),
        Some(levels) => (
            port.start_levels(from, to, levels),
            same::start_levels(words, fields, bits, root, kernel, user, marked, from, to, levels),
        ),
    };
    let told = || format!("start {from:x} {to:x} {levels:x?}");
    if one != other {
        return Err(format!("{}: {one:?} and {other:?}", told()));
    }
    alike(port, same).map_err(|part| format!("{}: {part}", told()))
}

pub fn play() -> Result<(), String> {
    let mut random = Random::new(1);
    for i in 0..SEQUENCES {
        let profile = random.one_of(&Profile::ALL);
        let mut generator = Generator::new(random.word(), profile);
        let (from, to) = generator.board();
        // The few boards of thousands of frames take long to copy.
        if to - from < 600 * PAGE {
            sequence(&mut random, &mut generator, from, to)
                .map_err(|why| format!("sequence {i}, {}: {why}", generator.label()))?;
        }
    }
    Ok(())
}

fn sequence(
    random: &mut Random,
    generator: &mut Generator,
    from: u64,
    to: u64,
) -> Result<(), String> {
    let mut port = Parts::lend(((to - from) / PAGE) as usize);
    generator.fill(&mut port.words);
    let mut same = copy(&port);
    let levels = random.one_of(&[None, Some(LEVELS), Some(MOST_LEVELS), Some(MOST_LEVELS)]);
    start(&mut port, &mut same, (from, to), levels)?;
    for _ in 0..generator.length() {
        let stands = state(&port).ok_or("parts that stand for no state")?;
        let call = generator.next(&stands);
        // Large boards take longer to copy.
        if random.chance(16, stands.total) {
            on_changed(random, generator, copy(&port), (from, to))?;
        }
        both(&mut port, &mut same, &call)?;
        search(random, &port, &same)?;
    }
    Ok(())
}

/// A call and a start on a board that is changed before.
fn on_changed(
    random: &mut Random,
    generator: &mut Generator,
    mut port: Parts,
    (from, to): (u64, u64),
) -> Result<(), String> {
    let mut parts = generator.perturb(&state(&port).ok_or("parts that stand for no state")?);
    if random.chance(1, 3) {
        crowd(random, &mut parts);
    }
    if random.chance(1, 2) {
        set(&mut port, &parts);
    }
    // Nothing is drawn on a list that is longer than 256.
    let Some(stands) = state(&port) else { return Ok(()) };
    let call = generator.next(&stands);
    for _ in 0..random.below(3) {
        damage(random, &mut port);
    }
    let mut same = copy(&port);
    both(&mut port, &mut same, &call)?;
    search(random, &port, &same)?;
    let end = random.one_of(&[to, from, from.wrapping_sub(1), (1 << 52) + 1]);
    let levels = random.one_of(&[None, Some(LEVELS), Some(MOST_LEVELS), Some(3), Some(6)]);
    start(&mut port, &mut same, (from, end), levels)
}

/// Other lists: at times full ones, or nearly so, and regions of any size over the pages that stand.
fn crowd(random: &mut Random, parts: &mut Perturbed) {
    let count = random.one_of(&[2, 9, 254, 255, 256]);
    let mut ranges = |window: u64| -> Vec<(u64, u64)> {
        let range = |i: u64| {
            let most = if i % 8 == 0 { 1 << random.below(20) } else { 1 };
            let before = random.below(most);
            let pages = 2 * before + 1 + random.below(4);
            (window + 4 * i * PAGE - before * PAGE, pages * PAGE)
        };
        (0..count).map(range).collect()
    };
    let slot = |(start, size)| trial::state::Slot { start, size, used: size & PAGE != 0 };
    parts.slots = ranges(KERNEL_WINDOW.0).into_iter().map(slot).collect();
    let region = |(start, size)| trial::state::Region { start, size, prot: 3, flags: 0x22 };
    parts.regions = ranges(USER_WINDOW.0).into_iter().map(region).collect();
    parts.regions.sort_by_key(|region| region.start);
    parts.regions.dedup_by_key(|region| region.start);
    parts.marked = (0..count).map(|i| USER_WINDOW.0 + 2 * i * PAGE).collect();
}

/// Sets a board to a state near its own.
fn set(board: &mut Parts, parts: &Perturbed) {
    for &(index, word) in &parts.words {
        board.words[index] = word;
    }
    board.fields = Frames { allocated: parts.allocated, ..board.frames() }.pack();
    *board.bits = raw::pack_bitmap(&parts.bitmap);
    board.root = parts.root;
    let none = Slot { start: 0, size: 0, used: false };
    let mut kernel = Kernel { count: parts.slots.len() as u64, slots: [none; 256] };
    for (to, s) in kernel.slots.iter_mut().zip(&parts.slots) {
        *to = Slot { start: s.start, size: s.size, used: s.used };
    }
    board.kernel = kernel.pack();
    let none = Region { start: 0, size: 0, prot: 0, flags: 0 };
    let (count, next_addr) = (parts.regions.len() as u64, parts.next_addr);
    let mut user = User { count, next_addr, slots: [none; 256] };
    for (to, r) in user.slots.iter_mut().zip(&parts.regions) {
        *to = Region { start: r.start, size: r.size, prot: r.prot, flags: r.flags };
    }
    board.user = user.pack();
    let mut marked = Marked { count: parts.marked.len() as u64, pages: [0; 256] };
    marked.pages.iter_mut().zip(&parts.marked).for_each(|(to, page)| *to = *page);
    board.marked = marked.pack();
}

/// Another root, other frames or levels, a root that leads to itself, or a byte or a length that is another
/// than it was, whatever that makes of the part. The bitmap has its length by its type.
fn damage(random: &mut Random, board: &mut Parts) {
    let record = board.frames();
    let Frames { start_frame, .. } = record;
    let Parts { words, fields, bits, root, kernel, user, marked } = board;
    let part = match random.below(11) {
        0 => return words.truncate(words.len().saturating_sub(random.below(2) as usize)),
        1 => return *root = root.wrapping_add(random.one_of(&[u64::MAX, 1, 600])),
        2 => {
            let start_frame = start_frame.wrapping_add(1 << random.one_of(&[12, 39, 40, 63]));
            *fields = Frames { start_frame, ..record }.pack();
            return *root = start_frame;
        }
        10 => {
            let levels = random.one_of(&[LEVELS, MOST_LEVELS, 0, 3, 6, u64::MAX]);
            return *fields = Frames { levels, ..record }.pack();
        }
        3 => {
            let first = root.wrapping_sub(start_frame).min(8192) as usize * 512;
            let table = words.get_mut(first..first + 512).unwrap_or_default();
            let entries = table.iter_mut().enumerate();
            let on_the_way = entries.filter(|(i, _)| [0, 32, 256, 511].contains(i));
            return on_the_way.for_each(|(_, entry)| *entry = root.wrapping_mul(PAGE) | 7);
        }
        4 | 5 => fields,
        6 => return any_byte(random, &mut bits[..]),
        7 => kernel,
        8 => user,
        _ => marked,
    };
    match random.below(8) {
        0 => part.push(0),
        1 => part.truncate(part.len().saturating_sub(1 + random.below(8) as usize)),
        2 => part.clear(),
        _ => any_byte(random, part),
    }
}

/// Another byte, mostly near the front.
fn any_byte(random: &mut Random, part: &mut [u8]) {
    let most = random.one_of(&[32, 72, part.len() as u64]).min(part.len() as u64);
    if let Some(byte) = part.get_mut(random.below(most) as usize) {
        let any = random.word() as u8;
        *byte = random.one_of(&[0, 1, 2, *byte ^ 1, *byte ^ 16, any]);
    }
}
