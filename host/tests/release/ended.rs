//! What holds where all regions are released: document 01's clauses one by one.

use crate::account::{Account, Run};
use crate::report::{equal_at, holds};
use calls::{KERNEL_WINDOW, LAST, PAGE, TEMPORARY, USER_WINDOW};
use std::collections::{BTreeMap, BTreeSet};
use trial::generate::Random;
use trial::state::{Slot, State};

const PRESENT: u64 = 1;
const HUGE: u64 = 128;
const ADDR_MASK: u64 = 0x000F_FFFF_FFFF_F000;

/// The state that a list and its releases left, told by the account of all of them.
pub fn check(state: &State, account: &Account) -> Result<(), String> {
    holds(account.live.is_empty(), "no region live")?;
    account.check(state)?;
    equal_at("the root", state.root, state.start_frame)?;
    let tables = tables(state)?;
    let runs: BTreeSet<Run> = tables.keys().copied().collect();
    equal_at("the tables and the leading runs of pages ever live", &runs, &account.runs)?;
    let frames: BTreeSet<u64> = tables.values().copied().collect();
    equal_at("tables that share no frame", frames.len(), tables.len())?;
    holds(!frames.contains(&state.root), "the root to be no page table")?;
    let marked = (0..state.total).map(|i| state.start_frame + i).filter(|f| state.is_marked(*f));
    let wanted: BTreeSet<u64> = frames.into_iter().chain([state.root]).collect();
    equal_at("the marked frames", marked.collect::<BTreeSet<u64>>(), wanted)?;
    equal_at("the counter", state.allocated, 1 + tables.len() as u64)?;
    if account.cuts == 0 {
        let size = KERNEL_WINDOW.1 - KERNEL_WINDOW.0;
        let window = Slot { start: KERNEL_WINDOW.0, size, used: false };
        equal_at("one free window", state.vmalloc(), &[window][..])?;
    }
    holds(state.vmalloc().iter().all(|part| !part.used), "free parts alone")
}

/// 'The frames that present entries above the last level reach from the root', each by its run. No
/// entry that would make an address translate is present: neither a leaf nor a HUGE entry of the last level
/// but one.
fn tables(state: &State) -> Result<BTreeMap<Run, u64>, String> {
    let mut tables = BTreeMap::new();
    let mut open = vec![((0, 0), state.root)];
    while let Some(((length, bits), table)) = open.pop() {
        let level = state.levels - length;
        let at = state.lent(table).ok_or(format!("table {table:x} is not lent"))? * 512;
        for (index, word) in (0..).zip(&state.words[at..at + 512]) {
            if word & PRESENT == 0 {
                continue;
            }
            let run = (length + 1, bits << 9 | index);
            holds(level > 1, &format!("no leaf at {run:x?}, {word:x}"))?;
            holds(level > 2 || word & HUGE == 0, &format!("no HUGE entry at {run:x?}, {word:x}"))?;
            let below = (word & ADDR_MASK) / PAGE;
            tables.insert(run, below);
            holds(tables.len() as u64 <= state.total, "fewer tables than frames")?;
            open.push((run, below));
        }
    }
    Ok(tables)
}

/// That no address translates: pages ever live, addresses beside them or under the same tables, limits
/// and random ones.
pub fn nowhere(
    random: &mut Random,
    account: &Account,
    is_nowhere: &mut dyn FnMut(u64) -> bool,
) -> Result<(), String> {
    let limits = [0, USER_WINDOW.0, 1 << 47, KERNEL_WINDOW.0, KERNEL_WINDOW.1, TEMPORARY, LAST];
    let mut addresses: Vec<u64> = limits.into_iter().chain([1 << 48, 1 << 56, u64::MAX]).collect();
    let ignored = 12 + 9 * account.levels;
    addresses.extend((0..32).map(|i| random.word() >> i));
    for live in &account.ever_live {
        addresses.extend(live.pages().map(|page| page + random.below(PAGE)));
        let ends = [live.start().wrapping_sub(1), live.start() + live.size()];
        addresses.extend(ends);
        let under = (12..ignored).step_by(9).map(|bits| live.start() ^ random.below(1 << bits));
        addresses.extend(under);
        addresses.push(live.start() ^ random.word() << ignored);
    }
    addresses
        .into_iter()
        .try_for_each(|addr| holds(is_nowhere(addr), &format!("14 for the address {addr:x}")))
}
