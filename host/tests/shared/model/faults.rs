//! Marked pages and both fault paths.

use super::memory::{entry, Memory};
use super::{Answer, Giving, Model, BROKEN};
use calls::{PAGE, TEMPORARY};
use gadulnos::raw::{NONE, SLOTS};
use trial::state::page_of;

impl Model {
    /// The marked pages, if their list is sound.
    fn sound_marked(&self) -> Result<Vec<u64>, u64> {
        let marked = self.marked.as_ref().ok_or(BROKEN)?;
        let count = usize::try_from(marked.count).ok().filter(|&n| n <= SLOTS).ok_or(BROKEN)?;
        let listed = &marked.pages[..count];
        match listed.windows(2).all(|pair| pair[0] < pair[1]) {
            true => Ok(listed.to_vec()),
            false => Err(BROKEN),
        }
    }

    fn store_marked(&mut self, list: &[u64]) {
        let marked = self.marked.as_mut().expect("a sound list");
        let count = marked.count as usize;
        marked.pages[list.len().min(count)..count].fill(0);
        marked.pages[..list.len()].copy_from_slice(list);
        marked.count = list.len() as u64;
    }

    pub fn mark_cow(&mut self, addr: u64) -> Answer {
        let mut list = self.sound_marked()?;
        if let Err(i) = list.binary_search(&page_of(addr)) {
            if list.len() >= SLOTS {
                return Err(20);
            }
            list.insert(i, page_of(addr));
        }
        self.store_marked(&list);
        Ok(0)
    }

    pub fn unmark_cow(&mut self, addr: u64) -> Answer {
        let mut list = self.sound_marked()?;
        list.retain(|page| *page != page_of(addr));
        self.store_marked(&list);
        Ok(0)
    }

    pub fn is_cow(&self, addr: u64) -> Answer {
        Ok(self.sound_marked()?.contains(&page_of(addr)).into())
    }

    /// The first path. Of a copy, what was found of 'its one, or none where the remapping unmapped no page'.
    pub fn fault(&mut self, addr: u64, code: u64) -> Giving {
        let whole = self.is_whole();
        let marked =
            self.sound_marked().and_then(|list| if whole { Ok(list) } else { Err(BROKEN) })?;
        let [present, write, user, reserved, fetch] = [1, 2, 4, 8, 16].map(|bit| code & bit != 0);
        let page = page_of(addr);
        if reserved {
            return Err(5);
        }
        if !present {
            let heap = (0xFFFF_FF00_0000_0000..0xFFFF_FF80_0000_0000).contains(&page);
            return match page < 1 << 47 || heap {
                false => Err(6),
                true if heap && fetch => Err(7),
                true => self.change(|memory| {
                    let frame = memory.take()?;
                    memory.map(page, entry(frame * PAGE, write, user)).map_err(|_| 18u64)?;
                    Ok(NONE)
                }),
            };
        }
        match (write, fetch) {
            (true, _) if !marked.contains(&page) => Err(17),
            (true, _) => {
                let tally = self.change(|memory| copy(memory, page, user))?;
                self.unmark_cow(page)?;
                Ok(tally)
            }
            (false, true) => Err(7),
            (false, false) => Err(8),
        }
    }

    /// The second path.
    pub fn second_fault(&mut self, addr: u64, code: u64) -> Answer {
        if !self.is_whole() {
            return Err(BROKEN);
        }
        let [present, write, user, reserved, fetch] = [1, 2, 4, 8, 16].map(|bit| code & bit != 0);
        match (reserved, present) {
            (true, _) => Err(5),
            (false, true) if write => Err(17),
            (false, true) if fetch => Err(7),
            (false, true) => Err(8),
            (false, false) => self.change(|memory| {
                let frame = memory.take()?;
                memory.overwrite(page_of(addr), entry(frame * PAGE, write, user))?;
                memory.zero(frame);
                Ok(0)
            }),
        }
    }
}

/// 'new frame, unmap that page if mapped, map it, copy from where `translate` now puts the faulting
/// page, unmap, remap the faulting page, free the old frame'. 'The temporary page aside', that is the one
/// that counts.
fn copy(memory: &mut Memory, page: u64, user: bool) -> Giving {
    let frame = memory.take()?;
    if memory.translate(TEMPORARY).is_ok() {
        let _ = memory.unmap(TEMPORARY);
    }
    memory.map(TEMPORARY, entry(frame * PAGE, true, false)).map_err(|_| 18u64)?;
    let source = memory.translate(page).ok().and_then(|phys| memory.lent(phys / PAGE));
    if let Some(source) = source {
        let target = memory.lent(frame).expect("a frame that was taken");
        memory.words.copy_within(source * 512..source * 512 + 512, target * 512);
    }
    let _ = memory.unmap(TEMPORARY);
    source.ok_or(18u64)?;
    let mut tally = NONE;
    if let Ok(old) = memory.unmap(page) {
        tally[memory.free(old)] += 1;
    }
    memory.map(page, entry(frame * PAGE, true, user)).map_err(|_| 18u64)?;
    Ok(tally)
}
