//! Random calls, chosen with the state in view and drawn to boundaries. The same seed and
//! the same answers give the same calls.

mod perturb;
mod pick;

use crate::state::{State, SLOTS};
pub use calls::Random;
use calls::{Call, Shape, LAST, PAGE};
pub use perturb::Perturbed;
use pick::Picker;

/// A call of a kind with any fields.
pub fn any_call(random: &mut Random, kind: u8) -> Call {
    let fields = Shape::of(kind).map_or(&[][..], |shape| shape.fields);
    let values: Vec<u64> = fields
        .iter()
        .map(|&(name, width)| match name {
            "given" | "gigabyte" | "write" => random.below(2),
            _ => random.word() >> (64 - 8 * width) >> random.below(8 * width as u64),
        })
        .collect();
    Call::from_fields(kind, &values).expect("fields of the right widths make a call")
}

/// Which calls a tape holds.
#[derive(Clone, Copy, Debug, PartialEq, Eq)]
pub enum Profile {
    /// The release paper: vmalloc, vfree, mmap and munmap.
    Release,
    /// Both fault paths, marked pages, and what maps pages for them.
    Faults,
    /// The frame calls beside the release paper's.
    Frames,
    /// mprotect beside the calls that map pages of regions and take them away.
    Protections,
    Everything,
}

impl Profile {
    pub const ALL: [Profile; 5] = [
        Profile::Release,
        Profile::Faults,
        Profile::Frames,
        Profile::Protections,
        Profile::Everything,
    ];

    pub fn name(self) -> &'static str {
        match self {
            Profile::Release => "release",
            Profile::Faults => "faults",
            Profile::Frames => "frames",
            Profile::Protections => "protections",
            Profile::Everything => "everything",
        }
    }

    pub fn named(name: &str) -> Option<Profile> {
        Profile::ALL.into_iter().find(|profile| profile.name() == name)
    }

    /// The kinds to draw from. A kind that stands more than once comes more often.
    fn kinds(self) -> &'static [u8] {
        match self {
            Profile::Release => &[1, 1, 2, 2, 3, 3, 3, 4, 4],
            Profile::Faults => &[1, 2, 3, 3, 4, 5, 5, 5, 5, 5, 5, 6, 7, 7, 8, 9, 11, 11, 12, 13],
            Profile::Frames => &[1, 2, 3, 4, 14, 14, 15, 15, 16, 17, 20],
            Profile::Protections => {
                &[1, 3, 3, 3, 3, 4, 5, 5, 6, 7, 8, 9, 9, 10, 11, 19, 19, 19, 19, 19, 19]
            }
            Profile::Everything => &[
                1, 1, 2, 2, 3, 3, 3, 4, 4, 5, 5, 5, 6, 6, 7, 7, 8, 8, 8, 9, 9, 10, 10, 10, 11, 11,
                12, 13, 14, 15, 16, 17, 18, 19, 20,
            ],
        }
    }
}

/// How a tape is drawn.
#[derive(Clone, Copy, PartialEq, Eq)]
enum Mood {
    /// Sizes are mostly small, so that calls are met.
    Orderly,
    /// Sizes are mostly at boundaries.
    Odd,
    /// Most calls fill one of the lists, to come to its 256 entries.
    Crowded(Filler),
}

#[derive(Clone, Copy, PartialEq, Eq)]
enum Filler {
    Vmalloc,
    /// Each larger than all before, and refused once the frames are gone.
    RisingVmalloc,
    Mmap,
    Mark,
}

impl Filler {
    fn is_full(self, state: &State) -> bool {
        let entries = match self {
            Filler::Vmalloc | Filler::RisingVmalloc => state.vmalloc_count,
            Filler::Mmap => state.regions.len(),
            Filler::Mark => state.marked.len(),
        };
        entries >= SLOTS
    }
}

pub struct Generator {
    seed: u64,
    profile: Profile,
    mood: Mood,
    random: Random,
    /// Addresses used so far, to come back to.
    recent: Vec<u64>,
}

impl Generator {
    pub fn new(seed: u64, profile: Profile) -> Generator {
        let mut random = Random::new(seed);
        let mood = match random.below(80) {
            0 if profile == Profile::Faults => Mood::Crowded(Filler::Mark),
            0 => Mood::Crowded(random.one_of(&[
                Filler::Vmalloc,
                Filler::RisingVmalloc,
                Filler::Mmap,
            ])),
            1..=50 => Mood::Orderly,
            _ => Mood::Odd,
        };
        Generator { seed, profile, mood, random, recent: Vec::new() }
    }

    /// One whose calls fill a list to its 256 entries.
    pub fn crowded(seed: u64) -> Generator {
        let mut random = Random::new(seed);
        let fillers = [Filler::Vmalloc, Filler::RisingVmalloc, Filler::Mmap, Filler::Mark];
        let filler = random.one_of(&fillers);
        let profile = match filler {
            Filler::Mark => Profile::Faults,
            _ => random.one_of(&[Profile::Release, Profile::Everything]),
        };
        Generator { seed, profile, mood: Mood::Crowded(filler), random, recent: Vec::new() }
    }

    /// The seed and the profile, to print beside a failure.
    pub fn label(&self) -> String {
        format!("seed {} profile {}", self.seed, self.profile.name())
    }

    /// A board: where its memory starts and ends. Mostly 1 to 64 frames, at times thousands.
    /// Some starts let a 1 GiB or 2 MiB entry point into the lent frames.
    pub fn board(&mut self) -> (u64, u64) {
        let random = &mut self.random;
        let frames = match random.below(100) {
            _ if matches!(self.mood, Mood::Crowded(Filler::Vmalloc | Filler::Mmap)) => {
                300 + random.below(50)
            }
            0..=14 => 16,
            15..=22 => 1 + random.below(8),
            23..=97 => 9 + random.below(56),
            98 => 65 + random.below(400),
            _ => random.one_of(&[500, 500, 1000, 8191, 8192, 8193]),
        };
        let before = random.below(frames.min(8));
        let start = match random.below(8) {
            0..=3 => 0x10_0000,
            4 => 0x10_0000 + random.below(PAGE),
            5 => 0x20_0000 - before * PAGE,
            _ => 0x4000_0000 - before * PAGE,
        };
        let rest = if random.chance(1, 8) { random.below(PAGE) } else { 0 };
        (start, start + frames * PAGE + rest)
    }

    /// What the lent frames hold before the start: zeros, or any words.
    pub fn fill(&mut self, words: &mut [u64]) {
        if self.random.chance(1, 2) {
            words.fill_with(|| self.random.word());
        }
    }

    /// How many calls to make.
    pub fn length(&mut self) -> usize {
        match self.random.below(10) {
            _ if matches!(self.mood, Mood::Crowded(_)) => 330 + self.random.below(100) as usize,
            0..=7 => 4 + self.random.below(40) as usize,
            8 => 60 + self.random.below(60) as usize,
            _ => 1 + self.random.below(4) as usize,
        }
    }

    /// A state near this one that no calls need lead to, mostly one with a sound record.
    pub fn perturb(&mut self, state: &State) -> Perturbed {
        let mut picker = Picker { state, random: &mut self.random, recent: &self.recent };
        perturb::perturb(&mut picker)
    }

    /// The next call on a board that stands like this.
    pub fn next(&mut self, state: &State) -> Call {
        let kind = self.random.one_of(self.profile.kinds());
        let mut picker = Picker { state, random: &mut self.random, recent: &self.recent };
        let call = match self.mood {
            Mood::Crowded(filler) if picker.random.chance(9, 10) && !filler.is_full(state) => {
                fill(&mut picker, filler)
            }
            mood => draw(&mut picker, kind, mood),
        };
        if let Call::MapPage { virt, .. } | Call::MapHugePage { virt, .. } = call {
            self.recent.push(virt);
        }
        if let Call::Fault { addr, .. } | Call::SecondFault { addr, .. } = call {
            self.recent.push(addr);
        }
        call
    }
}

fn fill(p: &mut Picker, filler: Filler) -> Call {
    match filler {
        Filler::Vmalloc => Call::Vmalloc { size: PAGE },
        Filler::RisingVmalloc => {
            let pages = p.state.total + p.state.vmalloc_count as u64;
            Call::Vmalloc { size: (pages + p.random.below(3)) * PAGE }
        }
        Filler::Mmap => Call::Mmap { given: false, addr: 0, size: PAGE, prot: 2, flags: 0x22 },
        Filler::Mark => {
            Call::MarkCow { addr: p.state.next_addr.wrapping_add(p.random.below(4000) * PAGE) }
        }
    }
}

fn draw(p: &mut Picker, kind: u8, mood: Mood) -> Call {
    let size = |p: &mut Picker| if mood == Mood::Odd { p.size() } else { p.fitting_size() };
    match kind {
        1 => Call::Vmalloc { size: size(p) },
        2 => Call::Vfree { addr: p.vfree_address() },
        3 => {
            let size = size(p);
            draw_mmap(p, size)
        }
        4 => {
            let (addr, size) = named_region(p);
            Call::Munmap { addr, size }
        }
        5 => {
            let (addr, code) = p.fault();
            Call::Fault { addr, code }
        }
        6 => Call::Translate { addr: p.address() },
        7 => {
            let (addr, code) = p.fault();
            Call::SecondFault { addr, code }
        }
        8 => Call::MapPage { virt: p.address(), phys: p.phys(), flags: p.flag_byte() },
        9 => Call::UnmapPage { virt: p.address() },
        10 => draw_huge(p),
        11 => Call::MarkCow { addr: p.address_to_mark() },
        12 => Call::UnmarkCow { addr: p.marked_address() },
        13 => Call::IsCow { addr: p.marked_address() },
        14 => Call::AllocateFrame,
        15 => Call::DeallocateFrame { frame: p.frame() },
        16 => Call::MarkAllocated { frame: p.frame() },
        17 => Call::IsAllocated { frame: p.frame() },
        18 => Call::IsVmallocAddr { addr: p.address() },
        19 => {
            let (addr, size) = named_region(p);
            Call::Mprotect { addr, size, prot: p.signed() }
        }
        _ => Call::Counts,
    }
}

/// Half without an address; the others fixed or hints, at times just where the range ends
/// at or around the last page address.
fn draw_mmap(p: &mut Picker, size: u64) -> Call {
    let given = p.random.chance(1, 2);
    let fixed = p.random.chance(1, 3);
    let mut addr = match p.random.below(8) {
        0 => p.address(),
        1 => LAST.wrapping_sub(size & !(PAGE - 1)).wrapping_add(PAGE * p.random.below(3)),
        _ => p.address() & !(PAGE - 1),
    };
    if given && p.random.chance(1, 4) {
        let lower_half = 1 << (p.state.width() - 1);
        addr = p.random.below(lower_half) & !(PAGE - 1);
    }
    let flags = match p.random.below(4) {
        0 => p.signed(),
        _ if fixed => 0x32,
        _ => 0x22,
    };
    Call::Mmap { given, addr, size, prot: p.signed(), flags }
}

/// What munmap and mprotect name: mostly a live region with a size that rounds to its own.
fn named_region(p: &mut Picker) -> (u64, u64) {
    let region = match p.live_region() {
        Some(region) => region,
        None => {
            let unaligned = if p.random.chance(1, 6) { 1 } else { 0 };
            return (p.address() & !(PAGE - 1) | unaligned, p.size());
        }
    };
    let addr = if p.random.chance(1, 10) { p.near(region.start) } else { region.start };
    let size = match p.random.below(10) {
        0..=5 => region.size,
        6 => region.size - p.random.below(PAGE),
        7 => p.near(region.size),
        _ => p.size(),
    };
    (addr, size)
}

fn draw_huge(p: &mut Picker) -> Call {
    let gigabyte = p.random.chance(1, 2);
    let size: u64 = if gigabyte { 1 << 30 } else { 1 << 21 };
    let (mut virt, mut phys) = (p.address(), p.phys());
    if p.random.chance(7, 8) {
        virt &= !(size - 1);
        phys = p.random.one_of(&[phys, 0x4000_0000, 0x20_0000, 1 << 52]) & !(size - 1);
    }
    Call::MapHugePage { virt, phys, gigabyte, flags: p.flag_byte() }
}
