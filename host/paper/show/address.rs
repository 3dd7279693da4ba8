//! The addresses that lead through an entry, told as the board's lists have them.
//!
//! Walks ignore what stands above the top index. So a path has many addresses; a region or a marked page says which one
//! is meant. And where several entries lead to one table, all that lies below it has several paths.

use calls::PAGE;
use gadulnos::{Board, Frame, Link, Place, VirtAddr};
use std::collections::HashMap;

/// How many ways to a table are followed, and how many addresses of an entry are told. Loops of tables have far more.
const MOST_WAYS: usize = 64;
const MOST_TOLD: usize = 16;

/// What an address is told by.
pub struct Addresses {
    levels: u64,
    /// Where the regions lie.
    regions: Vec<Region>,
    /// .. by the bits that walks read, rising: where each begins, and how far it or one before it reaches.
    reached: Vec<(u64, u64)>,
    /// The regions with an address that does not repeat the top bit.
    odd_regions: Vec<Region>,
    /// The marked pages of that kind.
    odd_pages: Vec<Region>,
    ways: HashMap<(u64, Frame), Ways>,
}

/// Addresses from a first one on.
#[derive(Clone, Copy)]
struct Region {
    start: u64,
    size: u64,
}

/// The ways to a table: the lowest address of each, without what stands above the top index.
#[derive(Clone, Default)]
struct Ways {
    lowest: Vec<u64>,
    /// Whether there are others.
    more: bool,
}

/// The addresses of an entry.
pub struct Told {
    /// The lowest of each way that leads through it, those that a region has first.
    pub addrs: Vec<VirtAddr>,
    /// Whether there are others.
    pub more: bool,
}

/// How far the index of a level stands from the right.
fn shift(level: u64) -> u64 {
    12 + 9 * level.saturating_sub(1)
}

impl Addresses {
    /// What the addresses of a board are told by.
    pub fn of(board: &Board, links: &[Link]) -> Addresses {
        let used = board.kernel_regions().into_iter().filter(|region| region.used);
        let used = used.map(|region| Region { start: region.start.get(), size: region.size });
        let user = board.user_regions().into_iter();
        let user = user.map(|region| Region { start: region.start.get(), size: region.size });
        let pages = board.marked_pages().into_iter();
        let pages = pages.map(|page| Region { start: page.get(), size: PAGE });
        let mut addresses = Addresses {
            levels: board.levels().get(),
            regions: used.chain(user).filter(|region| region.size > 0).collect(),
            reached: Vec::new(),
            odd_regions: Vec::new(),
            odd_pages: Vec::new(),
            ways: HashMap::new(),
        };
        let is_odd = |region: &Region| addresses.is_odd(region);
        let odd_regions = addresses.regions.iter().copied().filter(is_odd).collect();
        addresses.odd_pages = pages.filter(is_odd).collect();
        addresses.odd_regions = odd_regions;
        addresses.find_ways(board.root(), links);
        let is_shared = addresses.ways.values().any(|ways| ways.lowest.len() > 1);
        if is_shared {
            addresses.reached = addresses.reached();
        }
        addresses
    }

    /// The bits that walks read.
    fn mask(&self) -> u64 {
        (1 << shift(self.levels + 1)) - 1
    }

    /// An address with its top bit repeated above it.
    fn canonical(&self, addr: u64) -> u64 {
        let unused = 64 - shift(self.levels + 1);
        ((addr << unused) as i64 >> unused) as u64
    }

    /// Whether an address of a region does not repeat the top bit.
    fn is_odd(&self, region: &Region) -> bool {
        let last = region.start.saturating_add(region.size.saturating_sub(1));
        let above = shift(self.levels + 1) - 1;
        self.canonical(region.start) != region.start || (region.start ^ last) >> above != 0
    }

    /// Follows the ways from the root down, level by level: those to a table are whole before what it leads to.
    fn find_ways(&mut self, root: Frame, links: &[Link]) {
        let root_ways = Ways { lowest: vec![0], more: false };
        self.ways.insert((self.levels, root), root_ways);
        for level in (2..=self.levels).rev() {
            let here = |link: &&Link| link.level == level && link.place == Place::Table;
            for link in links.iter().filter(here) {
                let above = self.ways.get(&(level, link.table)).cloned().unwrap_or_default();
                let ways = self.ways.entry((level - 1, link.entry.frame())).or_default();
                let room = MOST_WAYS - ways.lowest.len();
                ways.more |= above.more || above.lowest.len() > room;
                let index = link.index() << shift(level);
                ways.lowest.extend(above.lowest.iter().take(room).map(|lowest| lowest | index));
            }
        }
    }

    /// Where the regions lie by the bits that walks read; one that goes on behind the last of these is two.
    fn reached(&self) -> Vec<(u64, u64)> {
        let mask = self.mask();
        let parts = self.regions.iter().flat_map(|region| {
            let start = region.start & mask;
            let end = start.saturating_add(region.size);
            [(start, end.min(mask + 1)), (0, end.saturating_sub(mask + 1))]
        });
        let mut reached: Vec<(u64, u64)> = parts.filter(|(start, end)| start < end).collect();
        reached.sort_unstable();
        let mut furthest = 0;
        for (_, end) in &mut reached {
            furthest = furthest.max(*end);
            *end = furthest;
        }
        reached
    }

    /// Whether a region has an address of these bits.
    fn has(&self, bits: u64) -> bool {
        let before = self.reached.partition_point(|(start, _)| *start <= bits);
        before.checked_sub(1).map_or(false, |last| self.reached[last].1 > bits)
    }

    /// The addresses of an entry.
    pub fn told(&self, link: &Link) -> Told {
        let index = link.index() << shift(link.level);
        let ways = self.ways.get(&(link.level, link.table));
        let (lowest, more) = ways.map_or((&[][..], false), |ways| (&ways.lowest[..], ways.more));
        let mut bits: Vec<u64> = lowest.iter().map(|lowest| lowest | index).collect();
        if bits.len() > 1 {
            bits.sort_by_key(|bits| !self.has(*bits));
        }
        let more = more || bits.len() > MOST_TOLD;
        let addrs = bits.iter().take(MOST_TOLD);
        Told { addrs: addrs.map(|bits| self.addr(*bits, 1 << shift(link.level))).collect(), more }
    }

    /// The address of these bits, from which on so many bytes lie: as a region or else a marked page has it, or else
    /// with its top bit repeated. So too if several regions have it and one of them has it so.
    fn addr(&self, bits: u64, span: u64) -> VirtAddr {
        let canonical = self.canonical(bits);
        let as_in = |region: &Region| region.addr(bits, span, self.mask());
        let odd = self.odd_regions.iter().find_map(as_in);
        let odd = odd.or_else(|| self.odd_pages.iter().find_map(as_in));
        let is_canonical = |region: &Region| as_in(region) == Some(canonical);
        let odd = odd.filter(|_| !self.regions.iter().any(is_canonical));
        VirtAddr::new(odd.unwrap_or(canonical))
    }

    /// The indices of an address from the root's down to a level's.
    pub fn path(&self, addr: VirtAddr, level: u64) -> Vec<u64> {
        let index = |level| addr.get() >> shift(level) & 511;
        (level..=self.levels).rev().map(index).collect()
    }
}

impl Region {
    /// The address of these bits, if it or one of so many bytes from it on lies in the region.
    fn addr(&self, bits: u64, span: u64, mask: u64) -> Option<u64> {
        let inside = bits.wrapping_sub(self.start) & mask;
        let before = self.start.wrapping_sub(bits) & mask;
        if inside < self.size {
            self.start.checked_add(inside)
        } else {
            (before < span).then(|| self.start.wrapping_sub(before))
        }
    }
}
