//! The oracle: one board on which the original's functions run.
//!
//! The original keeps its state in statics and uses physical addresses as pointers, so one
//! board at a time can be alive in a process, its frames mapped at their own addresses.

mod memory;
mod play;
pub mod pure;

use crate::{frame, mmap, page_fault, paging, stand_in, vmalloc};
pub use calls::tape;
pub use calls::Call;
use memory::Lent;
use std::panic::AssertUnwindSafe;
use std::sync::atomic::{AtomicBool, Ordering};
pub use trial::answer::{Numbers, Outcome};
use trial::generate::Perturbed;
pub use trial::state::{Region, Slot, State, BITMAP_WORDS, SLOTS};
pub use trial::{answer, domain, generate, minimise, state};

/// Whether this build panics where a sum overflows. The other build wraps.
pub const CHECKED: bool = cfg!(checked);

static ALIVE: AtomicBool = AtomicBool::new(false);

/// Why a board could not be started.
#[derive(Clone, Debug, PartialEq, Eq)]
pub enum Refused {
    /// Another board is alive.
    Alive,
    /// The original's `init` panicked, with this message.
    Panicked(String),
    /// There is no frame for the root: document 01's 11.
    NoFrame,
    /// This process cannot have memory at the board's physical addresses.
    NoMemory { start: u64, bytes: u64 },
}

pub struct Board {
    lent: Lent,
    _alive: Alive,
}

/// Held by the one board that is alive.
struct Alive;

impl Alive {
    fn claim() -> Result<Alive, Refused> {
        match ALIVE.swap(true, Ordering::Acquire) {
            true => Err(Refused::Alive),
            false => Ok(Alive),
        }
    }
}

impl Drop for Alive {
    fn drop(&mut self) {
        ALIVE.store(false, Ordering::Release);
    }
}

impl Board {
    /// Document 01's start, on frames that hold zeros.
    pub fn start(memory_start: u64, memory_end: u64) -> Result<Board, Refused> {
        Board::start_on(memory_start, memory_end, |_| ())
    }

    /// Document 01's start, on frames that `fill` has written first.
    pub fn start_on(
        memory_start: u64,
        memory_end: u64,
        fill: impl FnOnce(&mut [u64]),
    ) -> Result<Board, Refused> {
        let alive = Alive::claim()?;
        reset_statics();
        let init = AssertUnwindSafe(|| frame::access::init(memory_start, memory_end));
        play::catch(init).map_err(Refused::Panicked)?;
        let root = frame::allocate_frame().ok_or(Refused::NoFrame)?.start_address();

        let record = frame::access::record();
        let (start, bytes) = (record.start_frame * 4096, record.total * 4096);
        let mut lent = Lent::map(start, bytes).ok_or(Refused::NoMemory { start, bytes })?;
        fill(lent.words_mut());
        lent.words_mut()[..512].fill(0);
        stand_in::lend(start, start + bytes);
        stand_in::set_cr3(root);

        vmalloc::init();
        page_fault::init_cow();
        Ok(Board { lent, _alive: alive })
    }

    /// Makes a call. The caller has judged that no access leaves the board; see `domain`.
    pub fn play(&mut self, call: &Call) -> Outcome {
        play::play(call)
    }

    pub fn state(&self) -> State<'_> {
        let record = frame::access::record();
        let mut slots = [Slot::default(); SLOTS];
        vmalloc::access::each_slot(|i, start, size, used| slots[i] = Slot { start, size, used });
        let mut regions = Vec::new();
        mmap::access::each_region(|start, size, prot, flags| {
            regions.push(Region { start, size, prot, flags });
        });
        State {
            start_frame: record.start_frame,
            total: record.total,
            allocated: record.allocated,
            levels: calls::LEVELS,
            bitmap: record.bitmap,
            root: stand_in::cr3() / 4096,
            vmalloc_count: vmalloc::access::count(),
            slots,
            regions,
            next_addr: mmap::access::next_addr(),
            marked: page_fault::access::marked(),
            words: self.words(),
        }
    }

    pub fn words(&self) -> &[u64] {
        self.lent.words()
    }

    pub fn words_mut(&mut self) -> &mut [u64] {
        self.lent.words_mut()
    }

    pub fn set_frames(&mut self, bitmap: &[u64; BITMAP_WORDS], allocated: u64) {
        frame::access::set(bitmap, allocated);
    }

    /// Sets the root by its frame number.
    pub fn set_root(&mut self, frame: u64) {
        stand_in::set_cr3(frame * 4096);
    }

    /// Sets the vmalloc list, at most 256 regions. Slots past them become zero.
    pub fn set_vmalloc(&mut self, slots: &[Slot]) {
        vmalloc::access::set(slots.iter().map(|slot| (slot.start, slot.size, slot.used)));
    }

    pub fn set_mmap(&mut self, regions: &[Region], next_addr: u64) {
        let regions = regions.iter().map(|r| (r.start, r.size, r.prot, r.flags));
        mmap::access::set(regions, next_addr);
    }

    /// mmap's private search on the present list, or the panic message.
    pub fn find_free_region(&self, size: u64) -> Result<Option<u64>, String> {
        play::catch(|| mmap::access::find_free_region(size))
    }

    pub fn set_marked(&mut self, pages: &[u64]) {
        page_fault::access::set(pages.iter().copied());
    }

    /// Sets every part but the words that are not named.
    pub fn set(&mut self, parts: &Perturbed) {
        for &(index, word) in &parts.words {
            self.words_mut()[index] = word;
        }
        self.set_frames(&parts.bitmap, parts.allocated);
        self.set_root(parts.root);
        self.set_vmalloc(&parts.slots);
        self.set_mmap(&parts.regions, parts.next_addr);
        self.set_marked(&parts.marked);
    }
}

fn reset_statics() {
    frame::access::reset();
    paging::access::reset();
    vmalloc::access::reset();
    mmap::access::reset();
    page_fault::access::reset();
}
