//! Draws the calls of a list, with what stands and what once stood in view.

use crate::account::{kernel, top, user, Account, Live};
use calls::{Call, KERNEL_WINDOW, LAST, PAGE, USER_WINDOW};
use trial::generate::Random;
use trial::state::{State, SLOTS};

/// What a list is made for.
#[derive(Clone, Copy, PartialEq, Eq, Debug)]
pub enum Kind {
    /// Boards of 1 to 64 frames.
    Small,
    /// Boards of 65 to some hundreds of frames.
    Large,
    /// vmalloc lists of 256 parts, so that larger parts are cut.
    Cut,
    /// mmap lists of 256 regions.
    Full,
}

impl Kind {
    pub const ALL: [Kind; 4] = [Kind::Small, Kind::Large, Kind::Cut, Kind::Full];

    pub fn name(self) -> &'static str {
        match self {
            Kind::Small => "boards of 1 to 64 frames",
            Kind::Large => "boards of 65 to 400 frames",
            Kind::Cut => "vmalloc lists of 256 parts",
            Kind::Full => "mmap lists of 256 regions",
        }
    }

    /// How many of a hundred lists are of this kind.
    pub fn share(self) -> u64 {
        match self {
            Kind::Small => 78,
            Kind::Large => 14,
            Kind::Cut => 6,
            Kind::Full => 2,
        }
    }
}

/// Sizes at which something changes.
const SIZES: [u64; 12] = [
    0,
    1 << 30,
    1 << 37,
    (1 << 37) + 1,
    (1 << 37) - PAGE,
    1 << 47,
    0x6FFF_FFFF_E000,
    0x6FFF_FFFF_F000,
    LAST - PAGE,
    LAST,
    LAST + 1,
    u64::MAX,
];

pub struct Draw {
    kind: Kind,
    random: Random,
    /// Regions have at most so many pages, as a rule.
    pages: u64,
    left: usize,
}

impl Draw {
    pub fn new(mut random: Random, kind: Kind) -> Draw {
        let left = match kind {
            Kind::Small => 3 + random.below(45),
            Kind::Large => 30 + random.below(120),
            Kind::Cut => 330 + random.below(120),
            Kind::Full => 330 + random.below(60),
        };
        let pages = match kind {
            Kind::Small | Kind::Large => 1 + random.below(8),
            Kind::Cut => 2 + random.below(2),
            Kind::Full => 1,
        };
        Draw { kind, random, pages, left: left as usize }
    }

    /// A board's memory: its first and last address.
    pub fn memory(&mut self) -> (u64, u64) {
        let random = &mut self.random;
        let frames = match self.kind {
            Kind::Small if random.chance(1, 12) => 1 + random.below(6),
            Kind::Small => 5 + random.below(60),
            Kind::Large => 65 + random.below(336),
            Kind::Cut => 200 + 190 * self.pages + random.below(60),
            Kind::Full => 290 + random.below(120),
        };
        let start =
            random.one_of(&[0x10_0000, 0x10_0000, 0x10_0001, 0x7F_F000, 0x4000_0000 - PAGE]);
        (start, start + frames * PAGE + random.one_of(&[0, 0, 1, PAGE - 1]))
    }

    /// Whether the list goes on after a call that may not stand in it.
    pub fn goes_on(&mut self) -> bool {
        self.random.chance(31, 32) || matches!(self.kind, Kind::Cut | Kind::Full)
    }

    /// The next call, if the list is not at its end.
    pub fn call(&mut self, state: &State, account: &Account) -> Option<Call> {
        self.left = self.left.checked_sub(1)?;
        let filling = match self.kind {
            Kind::Cut => account.book.len() < SLOTS && self.random.chance(15, 16),
            Kind::Full => state.regions.len() < SLOTS && self.random.chance(15, 16),
            Kind::Small | Kind::Large => false,
        };
        Some(match (filling, self.kind) {
            (true, Kind::Cut) => Call::Vmalloc { size: self.few_pages() },
            (true, _) => self.next_mmap(state),
            _ => self.any(state, account),
        })
    }

    fn any(&mut self, state: &State, account: &Account) -> Call {
        let kind = match self.kind {
            Kind::Cut => self.random.one_of(&[1, 1, 1, 1, 2, 2, 2, 2, 3, 4]),
            Kind::Full => self.random.one_of(&[1, 2, 3, 3, 3, 3, 4, 4]),
            // Where few frames are left, mostly a release.
            _ if state.total - state.allocated < 4 => self.random.one_of(&[1, 2, 2, 3, 4, 4]),
            _ => self.random.one_of(&[1, 1, 1, 2, 2, 3, 3, 3, 3, 4, 4]),
        };
        match kind {
            1 => Call::Vmalloc { size: self.size(state) },
            2 => Call::Vfree { addr: self.vfree_address(account) },
            3 => self.mmap(state, account),
            _ => self.munmap(state, account),
        }
    }

    fn few_pages(&mut self) -> u64 {
        (1 + self.random.below(self.pages)) * PAGE
            - self.random.one_of(&[0, 0, 1, PAGE / 2, PAGE - 1])
    }

    /// Mostly a few pages; at times about all frames that are free, a limit, or anything.
    fn size(&mut self, state: &State) -> u64 {
        match self.random.below(16) {
            0 => self.random.one_of(&SIZES),
            1 => self.random.word() >> self.random.below(64),
            2 => (state.total - state.allocated).saturating_sub(self.random.below(5)) * PAGE,
            _ => self.few_pages(),
        }
    }

    /// Mostly a live region's start, else one that was live, one of the user's, or anything.
    fn vfree_address(&mut self, account: &Account) -> u64 {
        let live: Vec<u64> = account.live.iter().filter_map(kernel).collect();
        match self.random.below(10) {
            0..=6 if !live.is_empty() => self.random.one_of(&live),
            7 | 8 if !account.ever_live.is_empty() => {
                self.random.one_of(&account.ever_live).start()
            }
            9 if !live.is_empty() => self.random.one_of(&live) + self.random.one_of(&[1, PAGE]),
            _ => self.random.one_of(&[0, KERNEL_WINDOW.0, KERNEL_WINDOW.1, 1, u64::MAX]),
        }
    }

    /// One more region of a list that is being filled, at times with a gap before it. Where next_addr has left the
    /// search's window, which then finds nothing, an address within it is given.
    fn next_mmap(&mut self, state: &State) -> Call {
        let out = state.next_addr >= USER_WINDOW.1;
        let addr = match out {
            true => USER_WINDOW.0 + self.random.below(1 << 30) * PAGE,
            false => state.next_addr + self.random.below(3) * PAGE,
        };
        let given = out || self.random.chance(1, 3);
        let flags = self.random.one_of(&[0x22, 0x32]);
        Call::Mmap { given, addr, size: self.few_pages(), prot: self.signed(), flags }
    }

    fn mmap(&mut self, state: &State, account: &Account) -> Call {
        let size = self.size(state);
        let given = self.random.chance(3, 5);
        let mut addr = self.address(size, state, account) & !(PAGE - 1);
        if self.random.chance(1, 10) {
            addr |= 1 + self.random.below(PAGE - 1);
        }
        let flags = match self.random.below(8) {
            0 => self.signed(),
            1..=3 => 0x32,
            _ => 0x22,
        };
        Call::Mmap { given, addr, size, prot: self.signed(), flags }
    }

    /// Where a range may begin: in, at or beside a region, ending at or just above the top, across the end
    /// of a table, or anywhere.
    fn address(&mut self, size: u64, state: &State, account: &Account) -> u64 {
        let top = top(account.levels);
        let pages = (size & !(PAGE - 1)).min(1 << 46);
        let standing = match account.ever_live.is_empty() {
            true => Live::Kernel { start: USER_WINDOW.0, size: PAGE },
            false => self.random.one_of(&account.ever_live),
        };
        let (start, end) = (standing.start(), standing.start() + standing.size());
        match self.random.below(12) {
            0 => start,
            1 => start + self.random.below(standing.size()),
            2 => end,
            3 => end + self.random.below(4) * PAGE,
            4 => start.wrapping_sub(pages + PAGE * self.random.below(2)),
            5 => state.next_addr,
            6 => top - pages - PAGE * self.random.below(3),
            7 => {
                let tables = [1 << 21, 1 << 30, 1 << 39, 1 << 48];
                let table = self.random.one_of(&tables[..account.levels as usize - 1]);
                (1 + self.random.below(top / table - 1)) * table - PAGE
            }
            8 => self.random.one_of(&[0, PAGE, top, KERNEL_WINDOW.0, LAST, LAST - PAGE]),
            9 => self.random.below(top),
            10 => start ^ self.random.below(1 << 32),
            _ => start ^ (1 + self.random.below(3)) << 21,
        }
    }

    /// Mostly a live region with a size that rounds to its own.
    fn munmap(&mut self, state: &State, account: &Account) -> Call {
        let live: Vec<_> = account.live.iter().filter_map(user).collect();
        if live.is_empty() || self.random.chance(1, 6) {
            let size = self.size(state);
            return Call::Munmap { addr: self.address(size, state, account), size };
        }
        let region = self.random.one_of(&live);
        let (addr, size) = (region.start, region.size - self.random.below(PAGE));
        match self.random.below(12) {
            0 => Call::Munmap { addr, size: region.size + self.random.one_of(&[1, PAGE]) },
            1 => Call::Munmap { addr, size: region.size - PAGE },
            2 => Call::Munmap { addr: addr + self.random.one_of(&[1, PAGE]), size },
            3 => Call::Munmap { addr, size: self.random.one_of(&SIZES) },
            _ => Call::Munmap { addr, size },
        }
    }

    fn signed(&mut self) -> i32 {
        match self.random.below(8) {
            0 => self.random.one_of(&[-1, i32::MIN, i32::MAX, 0x10, -17]),
            1 => self.random.word() as i32,
            _ => self.random.below(8) as i32,
        }
    }
}
