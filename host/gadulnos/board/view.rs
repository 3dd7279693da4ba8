//! What stands on a board, to look at: its record, its lists, its tables.

use crate::raw::{Frames, Kernel, Marked, User};
use crate::{Board, Entry, Frame, Levels, MapFlags, PhysAddr, Prot, VirtAddr};
use std::collections::BTreeSet;
use std::fmt::{self, Debug, Formatter};

/// A region of the vmalloc list.
#[derive(Clone, Copy, Debug, PartialEq, Eq)]
pub struct KernelRegion {
    /// Its first address.
    pub start: VirtAddr,
    /// Its size in bytes.
    pub size: u64,
    /// Whether it is in use.
    pub used: bool,
}

/// A region of the mmap list.
#[derive(Clone, Copy, Debug, PartialEq, Eq)]
pub struct UserRegion {
    /// Its first address.
    pub start: VirtAddr,
    /// Its size in bytes.
    pub size: u64,
    /// Its protection.
    pub prot: Prot,
    /// The flags of the mmap that made it.
    pub flags: MapFlags,
}

/// A frame's words, read as a table's entries.
#[derive(Clone, Copy, PartialEq, Eq)]
pub struct Table<'a> {
    frame: Frame,
    words: &'a [u64],
}

impl Table<'_> {
    /// The frame that it is.
    ///
    /// ```
    /// # use gadulnos::*;
    /// # let board = Board::start(PhysAddr::new(0x10_0000), PhysAddr::new(0x11_0000), Levels::Four)?;
    /// let table = board.table(board.root()).expect("the root is on the board");
    /// assert_eq!(table.frame(), board.root());
    /// # Ok::<(), Refusal>(())
    /// ```
    pub fn frame(&self) -> Frame {
        self.frame
    }

    /// The entry at an index; nothing from 512 on.
    ///
    /// ```
    /// # use gadulnos::*;
    /// # let board = Board::start(PhysAddr::new(0x10_0000), PhysAddr::new(0x11_0000), Levels::Four)?;
    /// let table = board.table(board.root()).expect("the root is on the board");
    /// assert_eq!((table.entry(0), table.entry(512)), (Some(Entry::new(0)), None));
    /// # Ok::<(), Refusal>(())
    /// ```
    pub fn entry(&self, index: usize) -> Option<Entry> {
        self.words.get(index).copied().map(Entry::new)
    }

    /// All entries by their indices.
    ///
    /// ```
    /// # use gadulnos::*;
    /// # let mut board = Board::start(PhysAddr::new(0x10_0000), PhysAddr::new(0x11_0000), Levels::Four)?;
    /// board.vmalloc(1)?;
    /// let table = board.table(board.root()).expect("the root is on the board");
    /// let present = table.entries().filter(|(_, entry)| entry.is_present());
    /// assert_eq!(present.map(|(index, _)| index).collect::<Vec<_>>(), [511]);
    /// # Ok::<(), Refusal>(())
    /// ```
    pub fn entries(&self) -> impl Iterator<Item = (usize, Entry)> + '_ {
        self.words.iter().copied().map(Entry::new).enumerate()
    }
}

impl Debug for Table<'_> {
    fn fmt(&self, f: &mut Formatter) -> fmt::Result {
        let set = self.entries().filter(|(_, entry)| entry.word() != 0);
        write!(f, "Table {} ", self.frame)?;
        f.debug_map().entries(set).finish()
    }
}

/// What a present entry leads to.
#[derive(Clone, Copy, Debug, PartialEq, Eq)]
pub enum Place {
    /// A table on the level below.
    Table,
    /// A page: an entry of the last level.
    Page,
    /// A large page: HUGE on the last level but one.
    LargePage,
    /// A table outside the board's frames.
    Outside,
}

/// A present entry that can be reached from the root.
#[derive(Clone, Debug, PartialEq, Eq)]
pub struct Link {
    /// The table that it stands in.
    pub table: Frame,
    /// The table's level, counted from the bottom: 1 is the last.
    pub level: u64,
    /// The indices that lead to it, the root's first and its own last.
    pub path: Vec<u64>,
    /// The entry.
    pub entry: Entry,
    /// What it leads to.
    pub place: Place,
}

impl Link {
    /// Its index in its table.
    ///
    /// ```
    /// # use gadulnos::*;
    /// # let mut board = Board::start(PhysAddr::new(0x10_0000), PhysAddr::new(0x11_0000), Levels::Four)?;
    /// board.vmalloc(1)?;
    /// assert_eq!(board.links()[0].index(), 511);
    /// # Ok::<(), Refusal>(())
    /// ```
    pub fn index(&self) -> u64 {
        self.path.last().copied().unwrap_or_default()
    }

    /// The lowest address that leads through it. What lies above the top index repeats its highest bit.
    ///
    /// ```
    /// # use gadulnos::*;
    /// # let mut board = Board::start(PhysAddr::new(0x10_0000), PhysAddr::new(0x11_0000), Levels::Four)?;
    /// let region = board.vmalloc(1)?;
    /// assert_eq!(board.links()[3].addr(), region);
    /// # Ok::<(), Refusal>(())
    /// ```
    pub fn addr(&self) -> VirtAddr {
        let levels = self.level + self.path.len() as u64 - 1;
        let bits = self.path.iter().fold(0, |bits: u64, index| bits << 9 | index);
        let unused = 64u64.saturating_sub(12 + 9 * levels);
        let addr = bits << (12 + 9 * (self.level - 1)) << unused;
        VirtAddr::new((addr as i64 >> unused) as u64)
    }
}

/// What can be looked at.
impl Board {
    fn record(&self) -> Frames {
        self.parts().frames()
    }

    /// How many levels of page tables it has.
    ///
    /// ```
    /// # use gadulnos::*;
    /// # let board = Board::start(PhysAddr::new(0x10_0000), PhysAddr::new(0x11_0000), Levels::Four)?;
    /// assert_eq!(board.levels(), Levels::Four);
    /// # Ok::<(), Refusal>(())
    /// ```
    pub fn levels(&self) -> Levels {
        Levels::of(self.record().levels).unwrap_or_default()
    }

    /// Its first frame.
    ///
    /// ```
    /// # use gadulnos::*;
    /// # let board = Board::start(PhysAddr::new(0x10_0000), PhysAddr::new(0x11_0000), Levels::Four)?;
    /// assert_eq!(board.first_frame(), Frame::new(0x100));
    /// # Ok::<(), Refusal>(())
    /// ```
    pub fn first_frame(&self) -> Frame {
        Frame::new(self.record().start_frame)
    }

    /// How many frames it has.
    ///
    /// ```
    /// # use gadulnos::*;
    /// # let board = Board::start(PhysAddr::new(0x10_0000), PhysAddr::new(0x11_0000), Levels::Four)?;
    /// assert_eq!(board.total_frames(), 16);
    /// # Ok::<(), Refusal>(())
    /// ```
    pub fn total_frames(&self) -> u64 {
        self.parts().total_frames().value
    }

    /// How many of them are marked: the counter.
    ///
    /// ```
    /// # use gadulnos::*;
    /// # let mut board = Board::start(PhysAddr::new(0x10_0000), PhysAddr::new(0x11_0000), Levels::Four)?;
    /// board.vmalloc(1)?;
    /// assert_eq!(board.allocated_frames(), 5);
    /// # Ok::<(), Refusal>(())
    /// ```
    pub fn allocated_frames(&self) -> u64 {
        self.parts().allocated_frames().value
    }

    /// How many are free.
    ///
    /// ```
    /// # use gadulnos::*;
    /// # let board = Board::start(PhysAddr::new(0x10_0000), PhysAddr::new(0x11_0000), Levels::Four)?;
    /// assert_eq!(board.free_frames(), 15);
    /// # Ok::<(), Refusal>(())
    /// ```
    pub fn free_frames(&self) -> u64 {
        self.parts().free_frames().value
    }

    /// Its frames.
    ///
    /// ```
    /// # use gadulnos::*;
    /// # let board = Board::start(PhysAddr::new(0x10_0000), PhysAddr::new(0x11_0000), Levels::Four)?;
    /// assert_eq!(board.frames().last(), Some(Frame::new(0x10f)));
    /// # Ok::<(), Refusal>(())
    /// ```
    pub fn frames(&self) -> impl Iterator<Item = Frame> {
        let Frames { start_frame, total, .. } = self.record();
        (start_frame..start_frame.saturating_add(total)).map(Frame::new)
    }

    /// The frame that is the root.
    ///
    /// ```
    /// # use gadulnos::*;
    /// # let board = Board::start(PhysAddr::new(0x10_0000), PhysAddr::new(0x11_0000), Levels::Four)?;
    /// assert_eq!(board.root(), Frame::new(0x100));
    /// # Ok::<(), Refusal>(())
    /// ```
    pub fn root(&self) -> Frame {
        Frame::new(self.parts().root)
    }

    /// The vmalloc list.
    ///
    /// ```
    /// # use gadulnos::*;
    /// # let mut board = Board::start(PhysAddr::new(0x10_0000), PhysAddr::new(0x11_0000), Levels::Four)?;
    /// let start = board.vmalloc(5000)?;
    /// let region = KernelRegion { start, size: 8192, used: true };
    /// assert_eq!(board.kernel_regions()[0], region);
    /// # Ok::<(), Refusal>(())
    /// ```
    pub fn kernel_regions(&self) -> Vec<KernelRegion> {
        let list = Kernel::unpack(&self.parts().kernel);
        let regions = list.iter().flat_map(|list| list.slots.iter().take(list.count as usize));
        let view = |slot: &crate::raw::Slot| KernelRegion {
            start: VirtAddr::new(slot.start),
            size: slot.size,
            used: slot.used,
        };
        regions.map(view).collect()
    }

    /// The mmap list.
    ///
    /// ```
    /// # use gadulnos::*;
    /// # let mut board = Board::start(PhysAddr::new(0x10_0000), PhysAddr::new(0x11_0000), Levels::Four)?;
    /// let (prot, flags) = (Prot::READ, MapFlags::SHARED);
    /// let start = board.mmap(None, 5000, prot, flags)?;
    /// assert_eq!(board.user_regions(), [UserRegion { start, size: 8192, prot, flags }]);
    /// # Ok::<(), Refusal>(())
    /// ```
    pub fn user_regions(&self) -> Vec<UserRegion> {
        let list = User::unpack(&self.parts().user);
        let regions = list.iter().flat_map(|list| list.slots.iter().take(list.count as usize));
        let view = |region: &crate::raw::Region| UserRegion {
            start: VirtAddr::new(region.start),
            size: region.size,
            prot: Prot::from_bits(region.prot),
            flags: MapFlags::from_bits(region.flags),
        };
        regions.map(view).collect()
    }

    /// Where mmap's search begins.
    ///
    /// ```
    /// # use gadulnos::*;
    /// # let board = Board::start(PhysAddr::new(0x10_0000), PhysAddr::new(0x11_0000), Levels::Four)?;
    /// assert_eq!(board.next_addr(), VirtAddr::new(0x1000_0000_0000));
    /// # Ok::<(), Refusal>(())
    /// ```
    pub fn next_addr(&self) -> VirtAddr {
        VirtAddr::new(User::unpack(&self.parts().user).map_or(0, |list| list.next_addr))
    }

    /// The pages marked copy-on-write, rising.
    ///
    /// ```
    /// # use gadulnos::*;
    /// # let mut board = Board::start(PhysAddr::new(0x10_0000), PhysAddr::new(0x11_0000), Levels::Four)?;
    /// board.mark_cow(VirtAddr::new(0x7123))?;
    /// assert_eq!(board.marked_pages(), [VirtAddr::new(0x7000)]);
    /// # Ok::<(), Refusal>(())
    /// ```
    pub fn marked_pages(&self) -> Vec<VirtAddr> {
        let list = Marked::unpack(&self.parts().marked);
        let pages = list.iter().flat_map(|list| list.pages.iter().take(list.count as usize));
        pages.copied().map(VirtAddr::new).collect()
    }

    /// A frame's words as a table; nothing for a frame that is not on the board.
    ///
    /// ```
    /// # use gadulnos::*;
    /// # let mut board = Board::start(PhysAddr::new(0x10_0000), PhysAddr::new(0x11_0000), Levels::Four)?;
    /// board.vmalloc(1)?;
    /// let root = board.table(board.root()).expect("the root is on the board");
    /// assert_eq!(root.entry(511), Some(Entry::new(0x10_2003)));
    /// assert_eq!(board.table(Frame::new(0)), None);
    /// # Ok::<(), Refusal>(())
    /// ```
    pub fn table(&self, frame: Frame) -> Option<Table<'_>> {
        let Frames { start_frame, total, .. } = self.record();
        let index = frame.get().checked_sub(start_frame).filter(|index| *index < total)?;
        let at = usize::try_from(index).ok()?.checked_mul(512)?;
        let words = self.parts().words.get(at..at.checked_add(512)?)?;
        Some(Table { frame, words })
    }

    /// All present entries that can be reached from the root, a table's before those of the tables below it and in the
    /// order of the indices. A table that several entries lead to is gone into once on each level: by the first of them.
    ///
    /// ```
    /// # use gadulnos::*;
    /// # let mut board = Board::start(PhysAddr::new(0x10_0000), PhysAddr::new(0x11_0000), Levels::Four)?;
    /// let region = board.vmalloc(1)?;
    /// let links = board.links();
    /// assert_eq!(links.len(), 4);
    /// assert_eq!((links[3].place, links[3].addr()), (Place::Page, region));
    /// # Ok::<(), Refusal>(())
    /// ```
    pub fn links(&self) -> Vec<Link> {
        let mut links = Vec::new();
        let mut seen = BTreeSet::new();
        let mut next = vec![(self.root(), self.levels().get(), Vec::new())];
        while let Some((frame, level, path)) = next.pop() {
            if !seen.insert((level, frame)) {
                continue;
            }
            let found = self.links_of(frame, level, &path);
            let below = found.iter().filter(|link| link.place == Place::Table);
            next.extend(below.rev().map(|link| (link.entry.frame(), level - 1, link.path.clone())));
            links.extend(found);
        }
        links
    }

    /// The present entries of one table.
    fn links_of(&self, frame: Frame, level: u64, path: &[u64]) -> Vec<Link> {
        let entries = self.table(frame).into_iter().flat_map(|table| {
            let present = table.entries().filter(|(_, entry)| entry.is_present());
            present.collect::<Vec<_>>()
        });
        let link = |(index, entry): (usize, Entry)| Link {
            table: frame,
            level,
            path: path.iter().copied().chain([index as u64]).collect(),
            entry,
            place: match level {
                1 => Place::Page,
                2 if entry.is_huge() => Place::LargePage,
                _ if self.table(entry.frame()).is_some() => Place::Table,
                _ => Place::Outside,
            },
        };
        entries.map(link).collect()
    }

    /// The memory that it stands on: its first address and the one behind its last.
    ///
    /// ```
    /// # use gadulnos::*;
    /// # let board = Board::start(PhysAddr::new(0x10_0000), PhysAddr::new(0x11_0000), Levels::Four)?;
    /// assert_eq!(board.memory(), (PhysAddr::new(0x10_0000), PhysAddr::new(0x11_0000)));
    /// # Ok::<(), Refusal>(())
    /// ```
    pub fn memory(&self) -> (PhysAddr, PhysAddr) {
        let Frames { start_frame, total, .. } = self.record();
        let end = Frame::new(start_frame.saturating_add(total));
        (Frame::new(start_frame).start(), end.start())
    }
}

/// Its record and lists, and how much of its memory is in use; [`Board::links`] and [`Board::table`] tell the words.
impl Debug for Board {
    fn fmt(&self, f: &mut Formatter) -> fmt::Result {
        f.debug_struct("Board")
            .field("levels", &self.levels().get())
            .field("first_frame", &self.first_frame())
            .field("total_frames", &self.total_frames())
            .field("allocated_frames", &self.allocated_frames())
            .field("root", &self.root())
            .field("kernel_regions", &self.kernel_regions())
            .field("user_regions", &self.user_regions())
            .field("next_addr", &self.next_addr())
            .field("marked_pages", &self.marked_pages())
            .finish_non_exhaustive()
    }
}
