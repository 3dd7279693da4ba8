//! Thousands of calls on one board, which is kept from filling up: frames that nothing reaches are
//! freed, and where few are left, regions and pages are released.

use crate::rare::leaf;
use calls::{Call, PAGE};
use std::collections::BTreeSet;
use trial::domain;
use trial::generate::{Generator, Profile, Random};
use trial::state::State;

pub struct Churn {
    random: Random,
    generator: Generator,
    /// Calls to make before another is drawn, the last first.
    pending: Vec<Call>,
}

impl Churn {
    pub fn new(mut random: Random) -> Churn {
        let profile = random.one_of(&[Profile::Release, Profile::Faults]);
        let generator = Generator::new(random.word(), profile);
        Churn { random, generator, pending: Vec::new() }
    }

    pub fn call(&mut self, state: &State) -> Call {
        if let Some(call) = self.pending.pop() {
            return call;
        }
        if state.total - state.allocated < state.total / 4 && self.random.chance(3, 4) {
            self.release(state);
            if let Some(call) = self.pending.pop() {
                return call;
            }
        }
        self.draw(state)
    }

    /// A call that is not turned away with 11 or 13, as a rule, and maps no frame of its own choice.
    fn draw(&mut self, state: &State) -> Call {
        loop {
            let call = self.generator.next(state);
            let odd = matches!(call, Call::MapPage { .. } | Call::MapHugePage { .. });
            let turned_away = domain::read(state, &call).turned_away.is_some();
            if !odd && (!turned_away || self.random.chance(1, 50)) {
                return call;
            }
        }
    }

    /// Frees what is marked and not reached, else mostly a region, at times a page.
    fn release(&mut self, state: &State) {
        let (reached, pages) = reached(state);
        let marked =
            (0..state.total).map(|i| state.start_frame + i).filter(|f| state.is_marked(*f));
        let lost = marked.filter(|frame| !reached.contains(frame));
        self.pending.extend(lost.map(|frame| Call::DeallocateFrame { frame }));
        if !self.pending.is_empty() {
            return;
        }
        let slots = state.vmalloc().iter().filter(|slot| slot.used);
        let mut calls: Vec<Call> = slots.map(|slot| Call::Vfree { addr: slot.start }).collect();
        let regions = state.regions.iter();
        calls.extend(regions.map(|r| Call::Munmap { addr: r.start, size: r.size }));
        if calls.is_empty() || self.random.chance(1, 4) {
            calls = pages.iter().map(|virt| Call::UnmapPage { virt: *virt }).collect();
        }
        if !calls.is_empty() {
            self.pending.push(self.random.one_of(&calls));
        }
    }
}

/// The frames that are reached from the root, and the pages that are mapped.
fn reached(state: &State) -> (BTreeSet<u64>, Vec<u64>) {
    let (mut frames, mut pages) = (BTreeSet::from([state.root]), Vec::new());
    let mut open = vec![(state.levels, 0, state.root)];
    while let Some((level, bits, table)) = open.pop() {
        let at = match state.lent(table) {
            Some(index) => index * 512,
            None => continue,
        };
        for (index, word) in
            (0..).zip(&state.words[at..at + 512]).filter(|(_, word)| **word & 1 == 1)
        {
            let (bits, below) = (bits << 9 | index, (word & 0x000F_FFFF_FFFF_F000) / PAGE);
            match level == 1 {
                true => pages.push((bits << 12) | if bits >> 35 == 1 { 0xFFFF << 48 } else { 0 }),
                false if frames.contains(&below) => {}
                false => open.push((level - 1, bits, below)),
            }
            frames.insert(below);
        }
    }
    debug_assert!(pages.iter().all(|page| leaf(state, *page).is_some()));
    (frames, pages)
}
