//! The compiled port as a player of calls, all that is lent to it between guards.

#![allow(dead_code)] // no program uses all of it

use crate::guard::{self, Against, Guarded, GuardedArray};
use calls::Call;
use gadulnos::raw::{Frames, Kernel, Line, Marked, Parts, Told, User, BITMAP_BYTES, SHOWN_NUMBERS};
use trial::generate::{any_call, Generator, Random};
use trial::state::{Region, Slot, State, SLOTS};

pub type Port = Parts<Guarded<u64>, Guarded<u8>, GuardedArray<u8, BITMAP_BYTES>>;

/// The numbers that a translation's working is.
pub type Working = [u64; SHOWN_NUMBERS];

/// What they hold before a call.
const OLD: u64 = 0xA5A5_A5A5_A5A5_A5A5;

/// A copy of lent parts between guards.
pub fn guarded(board: &Parts, against: Against) -> Port {
    Parts {
        words: Guarded::copy(&board.words, against),
        fields: Guarded::copy(&board.fields, against),
        bits: GuardedArray::copy(&board.bits, against),
        root: board.root,
        kernel: Guarded::copy(&board.kernel, against),
        user: Guarded::copy(&board.user, against),
        marked: Guarded::copy(&board.marked, against),
    }
}

/// A copy of the parts without guards.
pub fn unguarded(port: &Port) -> Parts {
    Parts {
        words: port.words.to_vec(),
        fields: port.fields.to_vec(),
        bits: Box::new(*port.bits),
        root: port.root,
        kernel: port.kernel.to_vec(),
        user: port.user.to_vec(),
        marked: port.marked.to_vec(),
    }
}

/// Parts of the right lengths that hold anything, for these words; a start is to make them a board.
pub fn rubbish(random: &mut Random, words: &[u64]) -> Parts {
    let mut board = Parts { words: words.to_vec(), root: random.word(), ..Parts::lend(0) };
    let Parts { fields, bits, kernel, user, marked, .. } = &mut board;
    for part in [&mut fields[..], &mut bits[..], kernel, user, marked] {
        part.fill_with(|| random.word() as u8);
    }
    board
}

/// The parts of a state, packed. Slots past a count are zero.
pub fn packed(state: &State) -> Parts {
    let no_slot = gadulnos::raw::Slot { start: 0, size: 0, used: false };
    let mut kernel = Kernel { count: state.vmalloc_count as u64, slots: [no_slot; SLOTS] };
    for (to, s) in kernel.slots.iter_mut().zip(state.vmalloc()) {
        *to = gadulnos::raw::Slot { start: s.start, size: s.size, used: s.used };
    }
    let (count, next_addr) = (state.regions.len() as u64, state.next_addr);
    let none = gadulnos::raw::Region { start: 0, size: 0, prot: 0, flags: 0 };
    let mut user = User { count, next_addr, slots: [none; SLOTS] };
    for (to, r) in user.slots.iter_mut().zip(&state.regions) {
        *to = gadulnos::raw::Region { start: r.start, size: r.size, prot: r.prot, flags: r.flags };
    }
    let mut marked = Marked { count: state.marked.len() as u64, pages: [0; SLOTS] };
    marked.pages.iter_mut().zip(&state.marked).for_each(|(to, page)| *to = *page);
    let State { start_frame, total, allocated, levels, root, .. } = *state;
    Parts {
        words: state.words.to_vec(),
        fields: Frames { start_frame, total, allocated, levels }.pack(),
        bits: Box::new(gadulnos::raw::pack_bitmap(&state.bitmap)),
        root,
        kernel: kernel.pack(),
        user: user.pack(),
        marked: marked.pack(),
    }
}

/// Makes a call, which the watchdog is told.
pub fn play(port: &mut Port, call: &Call) -> Told {
    guard::calling(call);
    port.play(call)
}

/// Makes so many calls of kinds 1 to `kinds`, most of them drawn to what stands: the calls.
pub fn draw(
    random: &mut Random,
    generator: &mut Generator,
    port: &mut Port,
    count: u64,
    kinds: u8,
) -> Result<Vec<Call>, String> {
    let mut calls = Vec::new();
    while (calls.len() as u64) < count {
        let kind = 1 + random.below(kinds.into()) as u8;
        let call = match random.chance(1, 5) {
            true => any_call(random, kind),
            false => generator.next(&state(port)?),
        };
        if call.kind() <= kinds {
            play(port, &call);
            calls.push(call);
        }
    }
    Ok(calls)
}

/// The three counts: free, allocated, total.
pub fn counts(port: &Port) -> [Line; 3] {
    [port.free_frames(), port.allocated_frames(), port.total_frames()]
}

/// Whether user code may read an address, and write it.
pub fn user_may(port: &Port, virt: u64) -> [Line; 2] {
    [false, true].map(|write| port.user_may(virt, write))
}

/// A translation on lent words and numbers, and its working, which is written between guards.
pub fn show_translate(words: &[u64], frames: Frames, root: u64, virt: u64) -> (Line, Working) {
    let Frames { start_frame, total, levels, .. } = frames;
    let mut out = GuardedArray::copy(&[OLD; SHOWN_NUMBERS], Against::Behind);
    let line =
        gadulnos::raw::show_translate(words, start_frame, total, levels, root, virt, &mut out);
    (line, *out)
}

/// The state that the parts stand for, or which part stands for none, has too large a count, or has
/// a slot past the count that is not zero.
pub fn state(port: &Port) -> Result<State<'_>, String> {
    let frames = Frames::unpack(&port.fields).ok_or("fields")?;
    let kernel = Kernel::unpack(&port.kernel).ok_or("the vmalloc list")?;
    let user = User::unpack(&port.user).ok_or("the mmap list")?;
    let marked = Marked::unpack(&port.marked).ok_or("the marked pages")?;
    let past = |count: u64, blank: &dyn Fn(usize) -> bool| {
        count <= SLOTS as u64 && (count as usize..SLOTS).all(blank)
    };
    let blank_slot =
        |i: usize| kernel.slots[i].start | kernel.slots[i].size == 0 && !kernel.slots[i].used;
    let blank_region = |i: usize| {
        let gadulnos::raw::Region { start, size, prot, flags } = user.slots[i];
        start | size == 0 && prot | flags == 0
    };
    if !past(kernel.count, &blank_slot) {
        return Err("the vmalloc slots past the count".to_string());
    }
    if !past(user.count, &blank_region) || !past(marked.count, &|i| marked.pages[i] == 0) {
        return Err("the mmap or marked slots past the count".to_string());
    }
    let regions = user.slots[..user.count as usize].iter();
    Ok(State {
        start_frame: frames.start_frame,
        total: frames.total,
        allocated: frames.allocated,
        levels: frames.levels,
        bitmap: gadulnos::raw::unpack_bitmap(&port.bits),
        root: port.root,
        vmalloc_count: kernel.count as usize,
        slots: kernel.slots.map(|s| Slot { start: s.start, size: s.size, used: s.used }),
        regions: regions
            .map(|r| Region { start: r.start, size: r.size, prot: r.prot, flags: r.flags })
            .collect(),
        next_addr: user.next_addr,
        marked: marked.pages[..marked.count as usize].to_vec(),
        words: &port.words,
    })
}
