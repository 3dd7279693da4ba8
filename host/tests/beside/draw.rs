//! Draws calls on the mapper and the frames that are drawn to addresses and frames that stand.

use calls::{Call, KERNEL_WINDOW, LAST, PAGE, TEMPORARY, USER_WINDOW};
use trial::generate::Random;
use trial::state::State;

/// Addresses at which something changes.
const ADDRESSES: [u64; 10] = [
    0,
    USER_WINDOW.0,
    USER_WINDOW.1,
    1 << 47,
    0xFFFF_8000_0000_0000,
    KERNEL_WINDOW.0,
    KERNEL_WINDOW.1,
    TEMPORARY,
    LAST,
    u64::MAX,
];

/// Indices that come often, so that addresses share tables.
const INDICES: [u64; 6] = [0, 1, 2, 255, 256, 511];

/// The frame below a present entry.
fn below(state: &State, table: u64, index: u64) -> Option<u64> {
    let word = state.words[state.lent(table)? * 512 + index as usize];
    (word & 1 == 1).then_some((word & 0x000F_FFFF_FFFF_F000) / PAGE)
}

pub struct Draw {
    pub random: Random,
    /// Addresses used so far, to come back to.
    used: Vec<u64>,
}

impl Draw {
    pub fn new(random: Random) -> Draw {
        Draw { random, used: Vec::new() }
    }

    /// A call on the mapper, at times on the frames.
    pub fn call(&mut self, state: &State) -> Call {
        match self.random.chance(1, 15) {
            true => self.frame_call(state),
            false => self.mapper_call(state),
        }
    }

    /// A call on the mapper.
    fn mapper_call(&mut self, state: &State) -> Call {
        let virt = match self.random.chance(1, 3) {
            true => self.walked(state),
            false => self.address(),
        };
        let call = match self.random.below(12) {
            0..=4 => Call::MapPage { virt, phys: self.phys(state), flags: self.flags() },
            5 | 6 => Call::UnmapPage { virt },
            7 | 8 => self.huge(virt, state),
            _ => Call::Translate { addr: virt },
        };
        if matches!(call, Call::MapPage { .. } | Call::MapHugePage { .. }) {
            self.used.push(virt);
        }
        call
    }

    /// A call on the frames, mostly one that leaves tables in place.
    fn frame_call(&mut self, state: &State) -> Call {
        let frame = match self.random.below(4) {
            0 => {
                let end = state.start_frame + state.total;
                self.random.one_of(&[state.start_frame.wrapping_sub(1), end, 0, u64::MAX])
            }
            _ => self.frame(state),
        };
        match self.random.below(8) {
            0..=2 => Call::AllocateFrame,
            3 => Call::DeallocateFrame { frame },
            4 => Call::MarkAllocated { frame },
            5 => Call::IsAllocated { frame },
            _ => Call::Counts,
        }
    }

    /// Any address, most of them sharing indices with one that was used.
    fn address(&mut self) -> u64 {
        let random = &mut self.random;
        match random.below(10) {
            0..=5 if !self.used.is_empty() => {
                let addr = random.one_of(&self.used);
                self.relative(addr)
            }
            6 => {
                let addr = random.one_of(&ADDRESSES);
                addr.wrapping_add(random.one_of(&[0, 1, PAGE, PAGE.wrapping_neg(), u64::MAX]))
            }
            9 => random.word(),
            _ => self.crowded(),
        }
    }

    /// An address that shares its first one to four indices with another; the bits above the
    /// indices are at times others.
    fn relative(&mut self, addr: u64) -> u64 {
        let below = self.random.one_of(&[12, 12, 12, 12, 21, 30, 39]);
        let mask = (1 << below) - 1;
        let other = match self.random.chance(1, 2) {
            true => self.crowded(),
            false => self.random.word(),
        };
        let above = if self.random.chance(1, 5) { self.random.word() & 0xFFFF << 48 } else { 0 };
        (addr & !mask | other & mask) ^ above
    }

    /// An address all of whose indices come often.
    fn crowded(&mut self) -> u64 {
        let mut addr = self.random.below(PAGE);
        for shift in [12, 21, 30, 39] {
            addr |= self.random.one_of(&INDICES) << shift;
        }
        addr
    }

    /// An address whose indices lead along present entries, as far as there are any nearby.
    fn walked(&mut self, state: &State) -> u64 {
        let mut addr = self.random.word() & 0xFFFF_0000_0000_0FFF;
        let mut table = state.root;
        for shift in [39, 30, 21, 12] {
            let first = match self.random.chance(1, 2) {
                true => self.random.one_of(&INDICES),
                false => self.random.below(512),
            };
            let mut nearby = (0..512).map(|step| (first + step) % 512);
            let index = nearby.find(|&index| below(state, table, index).is_some()).unwrap_or(first);
            addr |= index << shift;
            table = below(state, table, index).unwrap_or(u64::MAX);
        }
        addr
    }

    fn frame(&mut self, state: &State) -> u64 {
        state.start_frame + self.random.below(state.total)
    }

    /// A physical address: a lent frame, one beside the board, with odd bits, or any.
    fn phys(&mut self, state: &State) -> u64 {
        let page = self.frame(state).wrapping_mul(PAGE);
        let end = (state.start_frame + state.total).wrapping_mul(PAGE);
        match self.random.below(8) {
            0..=3 => page,
            4 | 5 => page | self.random.word() & 0xFFF0_0000_0000_0FFF,
            6 => self.random.one_of(&[0, 1, PAGE - 1, end, 1 << 51, u64::MAX]),
            _ => self.random.word(),
        }
    }

    /// A huge page, mostly aligned; at times one address or both are not.
    fn huge(&mut self, virt: u64, state: &State) -> Call {
        let gigabyte = self.random.chance(1, 2);
        let size: u64 = if gigabyte { 1 << 30 } else { 1 << 21 };
        let phys = self.phys(state);
        let (aligned_virt, aligned_phys) = (virt & !(size - 1), phys & !(size - 1));
        let (virt, phys) = match self.random.below(12) {
            0 => (virt, aligned_phys),
            1 => (aligned_virt, phys),
            2 => (aligned_virt + PAGE, aligned_phys),
            3 => (aligned_virt, aligned_phys + size / 2),
            _ => (aligned_virt, aligned_phys),
        };
        Call::MapHugePage { virt, phys, gigabyte, flags: self.flags() }
    }

    fn flags(&mut self) -> u8 {
        self.random.word() as u8
    }
}
