//! Regions whose pages are changed before they are released: frames freed under them, pages not mapped, mapped off
//! the board or to a frame that another page has, so that releases find frames of every kind.

use crate::rare::leaf;
use calls::{Call, PAGE};
use trial::generate::{Generator, Random};
use trial::state::State;

pub struct Spoil {
    random: Random,
    generator: Generator,
}

/// A region's start, its pages, and the call that releases it.
type Held = (u64, u64, Call);

fn held(state: &State) -> Vec<Held> {
    let used = state.vmalloc().iter().filter(|slot| slot.used);
    let kernel = used.map(|slot| (slot.start, slot.size, Call::Vfree { addr: slot.start }));
    let munmap = |addr, size| Call::Munmap { addr, size };
    let user = state.regions.iter().map(|r| (r.start, r.size, munmap(r.start, r.size)));
    kernel.chain(user).map(|(start, size, call)| (start, size / PAGE, call)).collect()
}

impl Spoil {
    pub fn new(random: Random, generator: Generator) -> Spoil {
        Spoil { random, generator }
    }

    pub fn call(&mut self, state: &State) -> Call {
        let held = held(state);
        if held.is_empty() || held.len() < 4 && self.random.chance(1, 6) {
            return self.region();
        }
        let (start, pages, release) = self.random.one_of(&held);
        let virt = start + self.random.below(pages) * PAGE;
        let frame = leaf(state, virt).map(|(word, _)| (word & 0x000F_FFFF_FFFF_F000) / PAGE);
        match (self.random.below(10), frame) {
            (0..=3, Some(_)) => Call::UnmapPage { virt },
            (0..=3, None) => {
                let phys = self.frame(state, start, pages).wrapping_mul(PAGE);
                Call::MapPage { virt, phys, flags: 3 }
            }
            (4 | 5, Some(frame)) => Call::DeallocateFrame { frame },
            (6, _) => Call::MarkCow { addr: virt },
            (7, _) => Call::Fault { addr: virt, code: 7 },
            (8, _) => release,
            _ => self.generator.next(state),
        }
    }

    /// A new region of a few pages.
    fn region(&mut self) -> Call {
        let size = (1 + self.random.below(6)) * PAGE;
        match self.random.chance(1, 2) {
            true => Call::Vmalloc { size },
            false => Call::Mmap { given: false, addr: 0, size, prot: 2, flags: 0x22 },
        }
    }

    /// A frame for a page: off the board, another page's of the region, or the board's last.
    fn frame(&mut self, state: &State, start: u64, pages: u64) -> u64 {
        let end = state.start_frame + state.total;
        let other = leaf(state, start + self.random.below(pages) * PAGE);
        let other = other.map_or(end, |(word, _)| (word & 0x000F_FFFF_FFFF_F000) / PAGE);
        self.random.one_of(&[end, state.start_frame.wrapping_sub(1), other, other, end - 1])
    }
}
