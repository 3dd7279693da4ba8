//! A board taken down: the one structure that every form of `paper show` is made from.

use super::address::{Addresses, Told};
use calls::PAGE;
use gadulnos::{
    Access, Board, Entry, Frame, KernelRegion, Link, PhysAddr, Place, Table, UserRegion, VirtAddr,
};
use std::cmp::Reverse;
use std::collections::{BTreeMap, BTreeSet};

/// How many frames a large page has.
const LARGE: u64 = 512;

/// All that a candidate writes down of a board.
pub struct Model {
    /// How many levels of page tables it has.
    pub levels: u64,
    /// Its first frame.
    pub first_frame: Frame,
    /// How many frames it has.
    pub total_frames: u64,
    /// How many of them are marked: the counter.
    pub allocated_frames: u64,
    /// How many are free.
    pub free_frames: u64,
    /// The frame that is the root.
    pub root: Frame,
    /// Where mmap's search begins.
    pub next_addr: VirtAddr,
    /// Its frames, rising.
    pub frames: Vec<FrameView>,
    /// The vmalloc list.
    pub kernel_regions: Vec<KernelRegion>,
    /// The mmap list.
    pub user_regions: Vec<UserRegion>,
    /// The copy-on-write pages, rising.
    pub marked_pages: Vec<VirtAddr>,
    /// The tables that can be reached, from the root's level down, those of a level by their addresses.
    pub tables: Vec<TableView>,
}

/// A frame and what it holds.
pub struct FrameView {
    /// Its number.
    pub frame: Frame,
    /// Whether it is marked.
    pub marked: bool,
    /// All that it can be reached as; nothing, where it is free or lost.
    pub purposes: Vec<Purpose>,
    /// Whether it is reached at further addresses.
    pub more: bool,
    /// How many of its words are not 0.
    pub words: usize,
}

impl FrameView {
    /// Whether its words are a table's.
    pub fn is_table(&self) -> bool {
        self.purposes.iter().any(|is| matches!(is, Purpose::Root | Purpose::Table { .. }))
    }
}

/// What a frame is reached as.
#[derive(Clone)]
pub enum Purpose {
    /// Where every walk begins.
    Root,
    /// A table.
    Table {
        /// Its level, counted from the bottom: 1 is the last.
        level: u64,
        /// The indices that lead to it, the root's first.
        path: Vec<u64>,
    },
    /// A page.
    Page(Mapping),
    /// One of the frames of a large page.
    LargePage(Mapping),
}

impl Purpose {
    /// Its place among others: the root, tables from the top level down, pages.
    fn rank(&self) -> (u8, Reverse<u64>) {
        match self {
            Purpose::Root => (0, Reverse(0)),
            Purpose::Table { level, .. } => (1, Reverse(*level)),
            Purpose::Page(_) => (2, Reverse(0)),
            Purpose::LargePage(_) => (3, Reverse(0)),
        }
    }
}

/// A mapping and what it lets be done.
#[derive(Clone, Copy)]
pub struct Mapping {
    /// The address of its page.
    pub addr: VirtAddr,
    /// The entry that names the page.
    pub entry: Entry,
    /// Whether user code may read it: every entry on the way lets it.
    pub user_reads: bool,
    /// Whether user code may write it.
    pub user_writes: bool,
}

/// A table and its words.
pub struct TableView {
    /// The frame that it is.
    pub frame: Frame,
    /// Its level, counted from the bottom: 1 is the last.
    pub level: u64,
    /// The indices that lead to it, the root's first. Where several paths do, the first of them.
    pub path: Vec<u64>,
    /// Its words that are not 0.
    pub words: Vec<WordView>,
}

/// A word of a table that is not 0.
pub struct WordView {
    /// Its index.
    pub index: u64,
    /// The word as an entry.
    pub entry: Entry,
    /// What it leads to, if it is present.
    pub lead: Option<Lead>,
}

/// What a present entry leads to.
pub struct Lead {
    /// The entry and the first way to it.
    pub link: Link,
    /// The lowest address that leads through it, by each way.
    pub told: Told,
    /// The mapping that it makes at each of them, if it names a page.
    pub mappings: Vec<Mapping>,
}

impl Lead {
    /// The first of its addresses.
    pub fn addr(&self) -> VirtAddr {
        self.told.addrs.first().copied().unwrap_or_else(|| self.link.addr())
    }

    /// Whether it has others.
    pub fn has_others(&self) -> bool {
        self.told.more || self.told.addrs.len() > 1
    }
}

impl Model {
    /// Takes a board down.
    pub fn of(board: &Board) -> Model {
        let links = board.links();
        let addresses = Addresses::of(board, &links);
        let lead = |link| lead(board, &addresses, link);
        let leads: Vec<Lead> = links.into_iter().map(lead).collect();
        Model {
            levels: board.levels().get(),
            first_frame: board.first_frame(),
            total_frames: board.total_frames(),
            allocated_frames: board.allocated_frames(),
            free_frames: board.free_frames(),
            root: board.root(),
            next_addr: board.next_addr(),
            frames: frames(board, &addresses, &leads),
            kernel_regions: board.kernel_regions(),
            user_regions: board.user_regions(),
            marked_pages: board.marked_pages(),
            tables: tables(board, leads),
        }
    }

    /// A frame of the board; nothing for another.
    pub fn frame(&self, frame: Frame) -> Option<&FrameView> {
        let index = frame.get().checked_sub(self.first_frame.get())?;
        self.frames.get(usize::try_from(index).ok()?)
    }
}

/// An entry with the mappings that it makes.
fn lead(board: &Board, addresses: &Addresses, link: Link) -> Lead {
    let told = addresses.told(&link);
    let mapping = |addr: &VirtAddr| Mapping {
        addr: *addr,
        entry: link.entry,
        user_reads: board.user_may(*addr, Access::Read),
        user_writes: board.user_may(*addr, Access::Write),
    };
    let mappings = match link.place {
        Place::Table | Place::Outside => Vec::new(),
        Place::Page | Place::LargePage => told.addrs.iter().map(mapping).collect(),
    };
    Lead { link, told, mappings }
}

/// The frames with what each holds.
fn frames(board: &Board, addresses: &Addresses, leads: &[Lead]) -> Vec<FrameView> {
    let mut purposes: BTreeMap<Frame, Vec<Purpose>> = BTreeMap::new();
    purposes.insert(board.root(), vec![Purpose::Root]);
    let mut more = BTreeSet::new();
    for lead in leads {
        for (frame, purpose) in purposes_of(board, addresses, lead) {
            purposes.entry(frame).or_default().push(purpose);
            more.extend(lead.told.more.then_some(frame));
        }
    }
    let view = |frame| {
        let mut purposes = purposes.remove(&frame).unwrap_or_default();
        purposes.sort_by_key(Purpose::rank);
        let words = board.table(frame).map_or(0, |table| words(&table).count());
        let more = more.contains(&frame);
        FrameView { frame, marked: board.is_allocated(frame), purposes, more, words }
    };
    board.frames().map(view).collect()
}

/// The frames that an entry leads to, each with what it is reached as.
fn purposes_of(board: &Board, addresses: &Addresses, lead: &Lead) -> Vec<(Frame, Purpose)> {
    let Link { level, entry, place, .. } = &lead.link;
    let table = |addr: &VirtAddr| {
        let path = addresses.path(*addr, *level);
        (entry.frame(), Purpose::Table { level: level - 1, path })
    };
    let page = |mapping: &Mapping| (entry.frame(), Purpose::Page(*mapping));
    match place {
        Place::Table => lead.told.addrs.iter().map(table).collect(),
        Place::Page => lead.mappings.iter().map(page).collect(),
        Place::LargePage => {
            lead.mappings.iter().flat_map(|mapping| frames_of(board, *mapping)).collect()
        }
        Place::Outside => Vec::new(),
    }
}

/// The frames of a large page.
fn frames_of(board: &Board, mapping: Mapping) -> Vec<(Frame, Purpose)> {
    let page = |number: u64| mapping.addr.get().wrapping_add(number * PAGE);
    let lies = |number| board.translate(VirtAddr::new(page(number))).ok();
    let frames = (0..LARGE).filter_map(lies).map(PhysAddr::frame);
    frames.map(|frame| (frame, Purpose::LargePage(mapping))).collect()
}

/// The words of a table that are not 0, by their indices.
fn words<'a>(table: &'a Table) -> impl Iterator<Item = (u64, Entry)> + 'a {
    let entries = table.entries().filter(|(_, entry)| entry.word() != 0);
    entries.map(|(index, entry)| (index as u64, entry))
}

/// The tables that can be reached, with their words.
fn tables(board: &Board, leads: Vec<Lead>) -> Vec<TableView> {
    let mut places = vec![(board.root(), board.levels().get(), Vec::new())];
    let mut entries: BTreeMap<(u64, Frame, u64), Lead> = BTreeMap::new();
    for lead in leads {
        let link = &lead.link;
        if link.place == Place::Table {
            places.push((link.entry.frame(), link.level - 1, link.path.clone()));
        }
        entries.insert((link.level, link.table, link.index()), lead);
    }
    let mut seen = BTreeSet::new();
    places.retain(|(frame, level, _)| seen.insert((*level, *frame)));
    places.sort_by(|one, two| two.1.cmp(&one.1).then_with(|| one.2.cmp(&two.2)));
    let view = |(frame, level, path)| {
        let word = |(index, entry)| WordView {
            index,
            entry,
            lead: entries.remove(&(level, frame, index)),
        };
        let words =
            board.table(frame).map_or(Vec::new(), |table| words(&table).map(word).collect());
        TableView { frame, level, path, words }
    };
    places.into_iter().map(view).collect()
}
