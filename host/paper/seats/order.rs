//! Live regions, and the order in which a seat releases them.

use calls::{Call, Random, PAGE};
use gadulnos::Board;

/// A live region.
#[derive(Clone, Copy, Debug, PartialEq, Eq)]
pub struct Live {
    /// Whether it is the kernel's, by vmalloc, or the user's, by mmap.
    pub kernel: bool,
    /// Its first address.
    pub start: u64,
    /// Its size in bytes, a multiple of 4096.
    pub size: u64,
}

impl Live {
    /// A board's live regions: the used ones of the vmalloc list, then the mmap list, each in the list's order.
    pub fn on(board: &Board) -> Vec<Live> {
        let kernel = board.kernel_regions().into_iter().filter(|region| region.used);
        let kernel = kernel.map(|region| (true, region.start, region.size));
        let user = board.user_regions().into_iter();
        let user = user.map(|region| (false, region.start, region.size));
        let live = |(kernel, start, size): (bool, gadulnos::VirtAddr, u64)| Live {
            kernel,
            start: start.get(),
            size,
        };
        kernel.chain(user).map(live).collect()
    }

    /// The call that releases it. An munmap names so many bytes fewer.
    pub fn release(&self, fewer: u64) -> Call {
        match self.kernel {
            true => Call::Vfree { addr: self.start },
            false => Call::Munmap { addr: self.start, size: self.size.saturating_sub(fewer) },
        }
    }

    /// How many pages it has.
    pub fn pages(&self) -> u64 {
        self.size / PAGE
    }
}

/// A release in a seat's order.
#[derive(Clone, Copy, Debug, PartialEq, Eq)]
pub struct Release {
    /// The place of its region among the live ones, from 0.
    pub region: usize,
    /// The call.
    pub call: Call,
}

/// The orders of all seats.
pub struct Orders {
    /// The live regions.
    pub live: Vec<Live>,
    /// What decides the orders.
    pub seed: u64,
    /// Whether an munmap names any size that rounds to its region's, instead of that itself.
    pub odd_sizes: bool,
}

impl Orders {
    /// A seat's order. It depends on the live regions, the seed and the seat's number alone, so that more seats leave
    /// the orders of the first as they are: the regions in the lists' order are shuffled (Fisher and Yates, from the
    /// last place down) by the numbers of splitmix64 begun with w(w(seed) ^ seat), where w(s) is the first number of
    /// splitmix64 begun with s. Odd sizes are drawn behind that, a number for each release in the order.
    pub fn of(&self, seat: u64) -> Vec<Release> {
        let mixed = Random::new(self.seed).word() ^ seat;
        let mut random = Random::new(Random::new(mixed).word());
        let mut places: Vec<usize> = (0..self.live.len()).collect();
        for last in (1..places.len()).rev() {
            places.swap(last, random.below(last as u64 + 1) as usize);
        }
        let mut fewer = || if self.odd_sizes { random.below(PAGE) } else { 0 };
        let releases = places.into_iter().filter_map(|region| {
            let call = self.live.get(region)?.release(fewer());
            Some(Release { region, call })
        });
        releases.collect()
    }

    /// How many orders there are; nothing if more than a number of 64 bits can tell.
    pub fn count(&self) -> Option<u64> {
        (1..=self.live.len() as u64).try_fold(1u64, |count, next| count.checked_mul(next))
    }
}
