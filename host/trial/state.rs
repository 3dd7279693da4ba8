//! The state of a board as it stands between two calls.

use calls::{MOST_LEVELS, PAGE};

/// The number of words in the frame bitmap.
pub const BITMAP_WORDS: usize = 128;

/// The number of vmalloc slots, and the limit of mmap regions and of marked pages.
pub const SLOTS: usize = 256;

/// One vmalloc region.
#[derive(Clone, Copy, Debug, Default, PartialEq, Eq)]
pub struct Slot {
    pub start: u64,
    pub size: u64,
    pub used: bool,
}

/// One mmap region.
#[derive(Clone, Copy, Debug, PartialEq, Eq)]
pub struct Region {
    pub start: u64,
    pub size: u64,
    pub prot: i32,
    pub flags: i32,
}

/// A snapshot of the records beside a view of the lent words.
#[derive(Clone)]
pub struct State<'a> {
    pub start_frame: u64,
    pub total: u64,
    pub allocated: u64,
    /// The levels of page tables.
    pub levels: u64,
    pub bitmap: [u64; BITMAP_WORDS],
    /// The root's frame number.
    pub root: u64,
    pub vmalloc_count: usize,
    /// All slots. The Rust leaves old regions past the count; see `vmalloc`.
    pub slots: [Slot; SLOTS],
    /// The mmap regions, rising by start.
    pub regions: Vec<Region>,
    pub next_addr: u64,
    /// The copy-on-write pages, rising.
    pub marked: Vec<u64>,
    /// Frame number n sits at word (n - start_frame) * 512.
    pub words: &'a [u64],
}

impl State<'_> {
    /// The vmalloc regions that count, in list order.
    pub fn vmalloc(&self) -> &[Slot] {
        &self.slots[..self.vmalloc_count.min(SLOTS)]
    }

    /// How many bits of an address lead to its page and place: those above are ignored.
    pub fn width(&self) -> u32 {
        12 + 9 * self.levels.min(MOST_LEVELS) as u32
    }

    /// The index of a frame on this board.
    pub fn lent(&self, frame: u64) -> Option<usize> {
        let index = frame.checked_sub(self.start_frame)?;
        (index < self.total).then_some(index as usize)
    }

    /// Whether a lent frame is marked.
    pub fn is_marked(&self, frame: u64) -> bool {
        self.lent(frame).map_or(false, |index| bit(&self.bitmap, index))
    }

    /// The number of lent frames that are marked.
    pub fn marked_frames(&self) -> u64 {
        let whole = (self.total / 64).min(BITMAP_WORDS as u64) as usize;
        let full: u32 = self.bitmap[..whole].iter().map(|word| word.count_ones()).sum();
        let rest = self.total % 64;
        let part = self.bitmap.get(whole).map_or(0, |word| word & ((1 << rest) - 1));
        u64::from(full + part.count_ones())
    }

    /// Whether all that two implementations must agree on is equal: the words, the frame
    /// record, the root, both region lists up to their counts and the marked pages.
    pub fn agrees(&self, other: &State) -> bool {
        self.difference(other).is_none()
    }

    /// The first part in which two states differ.
    pub fn difference(&self, other: &State) -> Option<String> {
        macro_rules! compare {
            ($($name:literal: $part:expr, $of_other:expr;)*) => {
                $(if $part != $of_other {
                    return Some(format!("{}: {:x?} and {:x?}", $name, $part, $of_other));
                })*
            };
        }
        compare! {
            "start_frame": self.start_frame, other.start_frame;
            "total": self.total, other.total;
            "allocated": self.allocated, other.allocated;
            "levels": self.levels, other.levels;
            "root": self.root, other.root;
            "bitmap": self.bitmap, other.bitmap;
            "vmalloc": self.vmalloc(), other.vmalloc();
            "mmap": self.regions, other.regions;
            "next_addr": self.next_addr, other.next_addr;
            "marked": self.marked, other.marked;
            "number of words": self.words.len(), other.words.len();
        }
        if self.words == other.words {
            return None;
        }
        let mut pairs = self.words.iter().zip(other.words).enumerate();
        let (index, (word, of_other)) = pairs.find(|(_, (a, b))| a != b)?;
        Some(format!("word {index}: {word:x} and {of_other:x}"))
    }

    /// The records, and every word that is not zero as index:value.
    pub fn print(&self) -> String {
        let mut text = format!(
            "  start_frame {:#x} total {} allocated {} levels {} root {:#x}\n",
            self.start_frame, self.total, self.allocated, self.levels, self.root
        );
        text += &list("bitmap", nonzero(&self.bitmap));
        let slots = self.vmalloc().iter().map(|slot| {
            let used = if slot.used { "used" } else { "free" };
            format!("{:x}+{:x} {used}", slot.start, slot.size)
        });
        text += &list("vmalloc", slots);
        let regions = self
            .regions
            .iter()
            .map(|r| format!("{:x}+{:x} prot {} flags {}", r.start, r.size, r.prot, r.flags));
        text += &list("mmap", regions);
        text += &format!("  next_addr {:x}\n", self.next_addr);
        text += &list("marked", self.marked.iter().map(|page| format!("{page:x}")));
        text + &list("words", nonzero(self.words))
    }
}

/// One bit of a bitmap.
pub fn bit(bitmap: &[u64; BITMAP_WORDS], index: usize) -> bool {
    bitmap[index / 64] >> (index % 64) & 1 == 1
}

/// Whether a number is a multiple of a power of two.
pub fn is_multiple(number: u64, power: u64) -> bool {
    number & (power - 1) == 0
}

/// The page that holds an address.
pub fn page_of(addr: u64) -> u64 {
    addr & !(PAGE - 1)
}

fn nonzero(words: &[u64]) -> impl Iterator<Item = String> + '_ {
    let standing = words.iter().enumerate().filter(|(_, word)| **word != 0);
    standing.map(|(index, word)| format!("{index}:{word:x}"))
}

fn list(name: &str, items: impl Iterator<Item = String>) -> String {
    let items: Vec<String> = items.collect();
    format!("  {name} [{}]\n", items.join(", "))
}
