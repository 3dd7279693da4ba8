//! Names for calls that seldom come about, told from the state before them.

use calls::{Call, PAGE, TEMPORARY};
use trial::state::{page_of, State, SLOTS};

const HUGE: u64 = 128;

/// The words that a translation reads on four levels, read directly, the root's first.
pub fn entries(state: &State, virt: u64) -> Vec<u64> {
    let (mut entries, mut table) = (Vec::new(), state.lent(state.root));
    for shift in [39, 30, 21, 12] {
        let word = match table {
            Some(table) => state.words[table * 512 + (virt >> shift) as usize % 512],
            None => break,
        };
        entries.push(word);
        if word & 1 == 0 || shift == 21 && word & HUGE != 0 {
            break;
        }
        table = state.lent((word & 0x000F_FFFF_FFFF_F000) / PAGE);
    }
    entries
}

/// The entry that a translation ends at on four levels, and its level from the bottom.
pub fn leaf(state: &State, virt: u64) -> Option<(u64, usize)> {
    let entries = entries(state, virt);
    let (word, level) = (*entries.last()?, 5 - entries.len());
    let is_leaf = word & 1 != 0 && (level == 1 || level == 2 && word & HUGE != 0);
    is_leaf.then_some((word, level))
}

/// What is seldom about a call on this state, as names to count it under.
pub fn names(state: &State, call: &Call) -> Vec<String> {
    let mut names = of_lists(state, call);
    if let Call::Fault { addr, code } = *call {
        if code & 11 == 3 && state.marked.contains(&page_of(addr)) {
            names.push("copy".to_string());
            if leaf(state, TEMPORARY).is_some() {
                names.push("copy with the temporary page mapped".to_string());
            }
        }
    }
    if let Some(addr) = walked(call) {
        if leaf(state, addr).map_or(false, |(word, level)| level == 2 && word & HUGE != 0) {
            names
                .push(format!("{} over a HUGE entry of the last level but one", call.shape().name));
        }
    }
    names
}

/// What is seldom about the lists: full ones, and regions far larger than the board.
fn of_lists(state: &State, call: &Call) -> Vec<String> {
    let mut names = Vec::new();
    match *call {
        Call::Vmalloc { size } if state.vmalloc_count == SLOTS => {
            names.push("vmalloc at 256 regions".to_string());
            let fits = state.vmalloc().iter().find(|slot| !slot.used && slot.size >= size);
            if size > 0 && fits.map_or(false, |slot| slot.size - size >= PAGE) {
                names.push("vmalloc cuts at 256 regions".to_string());
            }
        }
        Call::Vfree { addr } => {
            if state.vmalloc_count == SLOTS {
                names.push("vfree at 256 regions".to_string());
            }
            let region = state.vmalloc().iter().find(|slot| slot.used && slot.start == addr);
            names.extend(far("vfree", state, region.map(|slot| slot.size)));
        }
        Call::Mmap { .. } if state.regions.len() >= SLOTS - 1 => {
            names.push(format!("mmap at {} regions", state.regions.len()));
        }
        Call::Munmap { addr, .. } => {
            if state.regions.len() == SLOTS {
                names.push("munmap at 256 regions".to_string());
            }
            let region = state.regions.iter().find(|region| region.start == addr);
            names.extend(far("munmap", state, region.map(|region| region.size)));
        }
        Call::Mprotect { addr, .. } => {
            let region = state.regions.iter().find(|region| region.start == addr);
            names.extend(far("mprotect", state, region.map(|region| region.size)));
        }
        Call::MarkCow { .. } if state.marked.len() == SLOTS - 1 => {
            names.push("mark_cow at 255 pages".to_string());
        }
        _ => {}
    }
    names
}

/// A release or an mprotect of a region far larger than the board, and of one of 2^29 bytes or more.
fn far(name: &str, state: &State, size: Option<u64>) -> Vec<String> {
    let size = size.unwrap_or(0);
    let names = [
        (size / PAGE > 4 * state.total, format!("{name} of a far larger region")),
        (size >= 1 << 29, format!("{name} of 2^29 bytes or more")),
        (size == 1 << 30, format!("{name} of 2^30 bytes")),
    ];
    names.into_iter().filter(|(holds, _)| *holds).map(|(_, name)| name).collect()
}

/// The address that a call walks to first, where its arguments tell.
pub fn walked(call: &Call) -> Option<u64> {
    match *call {
        Call::MapPage { virt, .. } | Call::UnmapPage { virt } => Some(virt),
        Call::MapHugePage { virt, .. } => Some(virt),
        Call::Munmap { addr, .. } | Call::Mprotect { addr, .. } => Some(addr),
        Call::Translate { addr } => Some(addr),
        Call::Fault { addr, .. } | Call::SecondFault { addr, .. } => Some(addr),
        Call::Mmap { given: true, addr, .. } => Some(addr),
        _ => None,
    }
}
