//! Document 01, written a second time and in the plainest way, on copies of what is lent, for boards of
//! four and of five levels: the frame record has their number. It knows also what lies outside the domain
//! of equality: 10, 19, 20 and the leftovers, and of document 02 the working of a translation, the rule of
//! the user question, mprotect and what giving frames back finds.

#![allow(dead_code)] // no program uses all of it

mod faults;
mod memory;
mod protect;
mod regions;
mod working;

use calls::{user, writable, Call, KERNEL_WINDOW, LAST, PAGE, USER_WINDOW};
use gadulnos::raw::{
    Bitmap, Frames, Kernel, Line, Marked, Marks, Parts, TallyNumbers, Told, User, SLOTS,
};
use memory::Memory;
use std::fmt::LowerHex;
use std::ops::Deref;
use trial::state::is_multiple;

/// A value, or one of document 01's numbers.
pub type Answer = Result<u64, u64>;

/// What was found of the frames that a met call gave back, or one of document 01's numbers.
pub type Giving = Result<TallyNumbers, u64>;

const BROKEN: u64 = 10;

/// The parts that are lent. One that has nothing stands for no record of its kind.
#[derive(Clone)]
pub struct Model {
    pub words: Vec<u64>,
    pub frames: Option<Frames>,
    pub bitmap: Bitmap,
    pub root: u64,
    pub kernel: Option<Kernel>,
    pub user: Option<User>,
    pub marked: Option<Marked>,
    /// Whether a release took too many steps, so that the model gave up in its midst.
    pub gave_up: bool,
}

impl Model {
    pub fn of<W, B, M>(board: &Parts<W, B, M>) -> Model
    where
        W: Deref<Target = [u64]>,
        B: Deref<Target = [u8]>,
        M: Deref<Target = Marks>,
    {
        Model {
            words: board.words.to_vec(),
            frames: Frames::unpack(&board.fields),
            bitmap: gadulnos::raw::unpack_bitmap(&board.bits),
            root: board.root,
            kernel: Kernel::unpack(&board.kernel),
            user: User::unpack(&board.user),
            marked: Marked::unpack(&board.marked),
            gave_up: false,
        }
    }

    /// That a board has the model's parts. Of a part that stands for no record nothing is said.
    pub fn compare<W, B, M>(&self, board: &Parts<W, B, M>) -> Result<(), String>
    where
        W: Deref<Target = [u64]>,
        B: Deref<Target = [u8]>,
        M: Deref<Target = Marks>,
    {
        let wanted = [
            self.frames.as_ref().map(Frames::pack),
            Some(gadulnos::raw::pack_bitmap(&self.bitmap).to_vec()),
            self.kernel.as_ref().map(Kernel::pack),
            self.user.as_ref().map(User::pack),
            self.marked.as_ref().map(Marked::pack),
        ];
        let parts: [(&str, &[u8]); 5] = [
            ("byte of fields", &board.fields),
            ("byte of bits", &board.bits[..]),
            ("byte of kernel", &board.kernel),
            ("byte of user", &board.user),
            ("byte of marked", &board.marked),
        ];
        for ((name, part), wanted) in parts.into_iter().zip(&wanted) {
            same(name, part, wanted.as_deref().unwrap_or(part))?;
        }
        same("root", &[board.root], &[self.root])?;
        same("word", &board.words, &self.words)
    }

    pub fn play(&mut self, call: &Call) -> Told {
        let giving = match *call {
            Call::Vfree { addr } => self.vfree(addr),
            Call::Munmap { addr, size } => self.munmap(addr, size),
            Call::Fault { addr, code } => self.fault(addr, code),
            _ => return self.answer(call).map_or_else(Told::refused, Told::met),
        };
        giving.map_or_else(Told::refused, Told::found)
    }

    fn answer(&mut self, call: &Call) -> Answer {
        match *call {
            Call::Vmalloc { size } => self.vmalloc(size),
            Call::Mmap { given, addr, size, prot, flags } => {
                self.mmap(given.then_some(addr), size, prot, flags)
            }
            Call::SecondFault { addr, code } => self.second_fault(addr, code),
            Call::Translate { addr } => self.on_walk(|memory| memory.translate(addr)),
            Call::UnmapPage { virt } => self.on_walk(|memory| memory.unmap(virt)),
            Call::MapPage { virt, phys, flags } => {
                let entry = memory::entry(phys, writable(flags), user(flags));
                self.on_frames_and_words(|memory| memory.map(virt, entry))
            }
            Call::MapHugePage { virt, phys, gigabyte, flags } => {
                let entry = memory::entry(phys, writable(flags), user(flags)) | memory::HUGE;
                self.on_frames_and_words(|memory| memory.map_huge(virt, phys, gigabyte, entry))
            }
            Call::MarkCow { addr } => self.mark_cow(addr),
            Call::UnmarkCow { addr } => self.unmark_cow(addr),
            Call::IsCow { addr } => self.is_cow(addr),
            Call::IsVmallocAddr { addr } => {
                Ok((KERNEL_WINDOW.0..KERNEL_WINDOW.1).contains(&addr).into())
            }
            Call::Mprotect { addr, size, prot } => self.mprotect(addr, size, prot),
            Call::UserMay { addr, write } => {
                let line = self.user_may(addr)[usize::from(write)];
                if line.number == 0 {
                    Ok(line.value)
                } else {
                    Err(line.number)
                }
            }
            _ => self.on_frames(call),
        }
    }

    fn on_frames(&mut self, call: &Call) -> Answer {
        if frames_are_broken(self.frames, &self.bitmap) {
            return Err(BROKEN);
        }
        let mut memory = self.memory();
        let answer = match *call {
            Call::AllocateFrame => memory.take(),
            Call::DeallocateFrame { frame } => Ok(memory.free(frame) as u64),
            Call::MarkAllocated { frame } => Ok(memory.mark(frame)),
            Call::IsAllocated { frame } => Ok(memory.is_marked(frame).into()),
            Call::Counts => Ok(memory.frames.allocated),
            _ => unreachable!("{call} is no call on frames"),
        };
        let (frames, bitmap) = (memory.frames, memory.bitmap);
        (self.frames, self.bitmap) = (Some(frames), bitmap);
        answer
    }

    /// The three counts: free, allocated, total.
    pub fn counts(&self) -> [Line; 3] {
        match self.frames {
            Some(Frames { total, allocated, .. })
                if !frames_are_broken(self.frames, &self.bitmap) =>
            {
                [total - allocated, allocated, total].map(Line::met)
            }
            _ => [Line::refused(BROKEN); 3],
        }
    }

    /// Whether user code may read an address, and write it.
    pub fn user_may(&mut self, virt: u64) -> [Line; 2] {
        [memory::USER, memory::USER | memory::WRITABLE].map(|bits| {
            let may = self.on_walk(|memory| Ok(memory.user_may(virt, bits).into()));
            may.map_or_else(Line::refused, Line::met)
        })
    }

    pub fn init(&mut self, from: u64, to: u64) -> Line {
        match fresh_frames(from, to) {
            Some(frames) if self.frames.is_some() => {
                (self.frames, self.bitmap) = (Some(frames), [0; 128]);
                Line::met(0)
            }
            _ => Line::refused(BROKEN),
        }
    }

    /// The start of a board of so many levels, on parts that have the right lengths if `fits`.
    pub fn start(&mut self, fits: bool, from: u64, to: u64, levels: u64) -> Line {
        let frames = match fresh_frames(from, to).filter(|_| fits && is_levels(levels)) {
            Some(frames) => frames,
            None => return Line::refused(BROKEN),
        };
        if (self.words.len() as u64) < frames.total * 512 {
            return Line::refused(BROKEN);
        }
        if frames.total == 0 {
            return Line::refused(11);
        }
        self.words[..512].fill(0);
        self.frames = Some(Frames { allocated: 1, levels, ..frames });
        self.bitmap = [0; 128];
        self.bitmap[0] = 1;
        self.root = frames.start_frame;
        let (start, size) = (KERNEL_WINDOW.0, KERNEL_WINDOW.1 - KERNEL_WINDOW.0);
        let mut slots = [regions::NO_SLOT; SLOTS];
        slots[0] = gadulnos::raw::Slot { start, size, used: false };
        self.kernel = Some(Kernel { count: 1, slots });
        let slots = [regions::NO_REGION; SLOTS];
        self.user = Some(User { count: 0, next_addr: USER_WINDOW.0, slots });
        self.marked = Some(Marked { count: 0, pages: [0; SLOTS] });
        Line::met(0)
    }

    /// Words, frames and root; parts that stand for nothing as zeros.
    fn memory(&mut self) -> Memory<'_> {
        let none = Frames { start_frame: 0, total: 0, allocated: 0, levels: 0 };
        Memory {
            words: &mut self.words,
            frames: self.frames.unwrap_or(none),
            bitmap: self.bitmap,
            root: self.root,
        }
    }

    /// A call that is lent words, start_frame, total, levels and root.
    fn on_walk(&mut self, call: impl FnOnce(&mut Memory) -> Answer) -> Answer {
        let mut memory = self.memory();
        match memory.walk_is_broken() {
            true => Err(BROKEN),
            false => call(&mut memory),
        }
    }

    /// Whether words, root and the frame record are sound.
    fn is_whole(&mut self) -> bool {
        let broken = frames_are_broken(self.frames, &self.bitmap);
        !broken && !self.memory().walk_is_broken()
    }

    /// A call that is lent these and the bitmap with the counter.
    fn on_frames_and_words(&mut self, call: impl FnOnce(&mut Memory) -> Answer) -> Answer {
        match self.is_whole() {
            true => self.change(call),
            false => Err(BROKEN),
        }
    }

    /// A step on sound parts, whose frame record is kept.
    fn change<T>(&mut self, step: impl FnOnce(&mut Memory) -> T) -> T {
        let mut memory = self.memory();
        let result = step(&mut memory);
        let (frames, bitmap) = (memory.frames, memory.bitmap);
        (self.frames, self.bitmap) = (Some(frames), bitmap);
        result
    }
}

/// That a part is the one that was wanted; else where they differ.
fn same<T: PartialEq + LowerHex>(name: &str, part: &[T], wanted: &[T]) -> Result<(), String> {
    match part.iter().zip(wanted).position(|(got, wanted)| got != wanted) {
        Some(at) => Err(format!("{name}, {at}: got {:x}, wanted {:x}", part[at], wanted[at])),
        None if part.len() != wanted.len() => Err(format!("{name}: another length")),
        None => Ok(()),
    }
}

/// What `init` makes of a memory: nothing for 'start above end, end above 2^52'. It leaves 4 levels.
fn fresh_frames(from: u64, to: u64) -> Option<Frames> {
    let sound = from <= to && to <= 1 << 52;
    sound.then(|| Frames {
        start_frame: from / PAGE,
        total: ((to - from) / PAGE).min(8192),
        allocated: 0,
        levels: 4,
    })
}

/// 'A board is started with 4 or 5 levels'.
fn is_levels(levels: u64) -> bool {
    levels == 4 || levels == 5
}

/// 'total above 8192, .. frames ending above 2^52, .. a counter other than the set bits below total', or
/// other levels.
fn frames_are_broken(frames: Option<Frames>, bitmap: &Bitmap) -> bool {
    let frames = match frames {
        Some(frames) => frames,
        None => return true,
    };
    let ends_high = u128::from(frames.start_frame) + u128::from(frames.total) > 1 << 40;
    if frames.total > 8192 || ends_high || !is_levels(frames.levels) {
        return true;
    }
    let set = (0..frames.total as usize).filter(|i| bitmap[i / 64] >> (i % 64) & 1 == 1);
    frames.allocated != set.count() as u64
}

/// Whether a recorded region 'is unaligned, .. is empty or ends above 2^64-4096'.
fn is_misplaced(start: u64, size: u64) -> bool {
    let end = u128::from(start) + u128::from(size);
    let aligned = is_multiple(start, PAGE) && is_multiple(size, PAGE);
    !aligned || size == 0 || end > u128::from(LAST)
}
