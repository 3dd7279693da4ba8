//! The packed layout of a board's parts (docs/LAYOUT.md).

/// The levels of page tables of a board if none are named.
pub const LEVELS: u64 = 4;

/// The most levels that there may be.
pub const MOST_LEVELS: u64 = 5;

/// The number of slots of each list.
pub const SLOTS: usize = 256;

/// One bit for each of 8192 frames: frame start_frame + i is bit i % 64 of word i / 64.
pub type Bitmap = [u64; 128];

/// The packed bitmap's length.
pub const BITMAP_BYTES: usize = 1024;

/// The packed bitmap, as the calls are lent it. It has its length by its type.
pub type Marks = [u8; BITMAP_BYTES];

/// The frame record.
#[derive(Clone, Copy, Debug, PartialEq, Eq)]
pub struct Frames {
    /// The first frame's number.
    pub start_frame: u64,
    /// How many frames there are.
    pub total: u64,
    /// The counter: how many are marked.
    pub allocated: u64,
    /// The board's levels of page tables, 4 or 5.
    pub levels: u64,
}

/// A region of the vmalloc list.
#[derive(Clone, Copy, Debug, PartialEq, Eq)]
pub struct Slot {
    /// Its first address.
    pub start: u64,
    /// Its size in bytes.
    pub size: u64,
    /// Whether it is in use.
    pub used: bool,
}

/// The vmalloc list. The first `count` slots are its regions.
#[derive(Clone, Debug, PartialEq, Eq)]
pub struct Kernel {
    /// How many regions there are.
    pub count: u64,
    /// All slots.
    pub slots: [Slot; SLOTS],
}

/// A region of the mmap list.
#[derive(Clone, Copy, Debug, PartialEq, Eq)]
pub struct Region {
    /// Its first address.
    pub start: u64,
    /// Its size in bytes.
    pub size: u64,
    /// Its protection.
    pub prot: i32,
    /// The flags of the mmap that made it.
    pub flags: i32,
}

/// The mmap list. The first `count` slots are its regions, rising by start.
#[derive(Clone, Debug, PartialEq, Eq)]
pub struct User {
    /// How many regions there are.
    pub count: u64,
    /// Where mmap's search begins.
    pub next_addr: u64,
    /// All slots.
    pub slots: [Region; SLOTS],
}

/// The pages marked copy-on-write: the first `count`, rising.
#[derive(Clone, Debug, PartialEq, Eq)]
pub struct Marked {
    /// How many pages there are.
    pub count: u64,
    /// All slots.
    pub pages: [u64; SLOTS],
}

fn word(bytes: &[u8], at: usize) -> u64 {
    u64::from_le_bytes(bytes[at..at + 8].try_into().expect("eight bytes"))
}

fn half(bytes: &[u8], at: usize) -> i32 {
    i32::from_le_bytes(bytes[at..at + 4].try_into().expect("four bytes"))
}

/// Words, one after the other, little-endian.
fn pack_words(words: impl IntoIterator<Item = u64>) -> Vec<u8> {
    words.into_iter().flat_map(u64::to_le_bytes).collect()
}

/// The packed layout. `unpack` has nothing for bytes that stand for no record of its kind.
impl Frames {
    /// Its length in bytes.
    pub const BYTES: usize = 32;

    /// Its bytes.
    ///
    /// ```
    /// # use gadulnos::raw::*;
    /// # let mut p = Parts::lend(16);
    /// # p.start(0x10_0000, 0x11_0000);
    /// let record = Frames::unpack(&p.fields).expect("a record");
    /// assert_eq!(record.pack(), p.fields);
    /// ```
    pub fn pack(&self) -> Vec<u8> {
        pack_words([self.start_frame, self.total, self.allocated, self.levels])
    }

    /// The record that bytes stand for.
    ///
    /// ```
    /// # use gadulnos::raw::*;
    /// assert!(Frames::unpack(&[0; Frames::BYTES]).is_some());
    /// assert!(Frames::unpack(&[]).is_none());
    /// ```
    pub fn unpack(bytes: &[u8]) -> Option<Frames> {
        let fits = bytes.len() == Frames::BYTES;
        fits.then(|| Frames {
            start_frame: word(bytes, 0),
            total: word(bytes, 8),
            allocated: word(bytes, 16),
            levels: word(bytes, 24),
        })
    }
}

/// A bitmap's bytes.
///
/// ```
/// # use gadulnos::raw::*;
/// assert_eq!(pack_bitmap(&[1; 128])[..9], [1, 0, 0, 0, 0, 0, 0, 0, 1]);
/// ```
pub fn pack_bitmap(bitmap: &Bitmap) -> Marks {
    std::array::from_fn(|i| bitmap[i / 8].to_le_bytes()[i % 8])
}

/// The bitmap that bytes stand for; any do.
///
/// ```
/// # use gadulnos::raw::*;
/// assert_eq!(unpack_bitmap(&[0xff; BITMAP_BYTES]), [u64::MAX; 128]);
/// ```
pub fn unpack_bitmap(bits: &Marks) -> Bitmap {
    std::array::from_fn(|i| word(bits, 8 * i))
}

impl Kernel {
    /// Its length in bytes.
    pub const BYTES: usize = 8 + 24 * SLOTS;

    /// Its bytes.
    ///
    /// ```
    /// # use gadulnos::raw::*;
    /// # let mut p = Parts::lend(16);
    /// # p.start(0x10_0000, 0x11_0000);
    /// let record = Kernel::unpack(&p.kernel).expect("a record");
    /// assert_eq!(record.pack(), p.kernel);
    /// ```
    pub fn pack(&self) -> Vec<u8> {
        let slots = self.slots.iter().flat_map(|s| [s.start, s.size, s.used.into()]);
        pack_words([self.count].into_iter().chain(slots))
    }

    /// The record that bytes stand for; `used` is 0 or 1.
    ///
    /// ```
    /// # use gadulnos::raw::*;
    /// assert!(Kernel::unpack(&[0; Kernel::BYTES]).is_some());
    /// assert!(Kernel::unpack(&[]).is_none());
    /// ```
    pub fn unpack(bytes: &[u8]) -> Option<Kernel> {
        let fits = bytes.len() == Kernel::BYTES;
        if !fits || (0..SLOTS).any(|i| word(bytes, 24 + 24 * i) > 1) {
            return None;
        }
        let slots = std::array::from_fn(|i| Slot {
            start: word(bytes, 8 + 24 * i),
            size: word(bytes, 16 + 24 * i),
            used: word(bytes, 24 + 24 * i) == 1,
        });
        Some(Kernel { count: word(bytes, 0), slots })
    }
}

impl User {
    /// Its length in bytes.
    pub const BYTES: usize = 16 + 24 * SLOTS;

    /// Its bytes.
    ///
    /// ```
    /// # use gadulnos::raw::*;
    /// # let mut p = Parts::lend(16);
    /// # p.start(0x10_0000, 0x11_0000);
    /// let record = User::unpack(&p.user).expect("a record");
    /// assert_eq!(record.pack(), p.user);
    /// ```
    pub fn pack(&self) -> Vec<u8> {
        let both = |r: &Region| u64::from(r.prot as u32) | u64::from(r.flags as u32) << 32;
        let slots = self.slots.iter().flat_map(|r| [r.start, r.size, both(r)]);
        pack_words([self.count, self.next_addr].into_iter().chain(slots))
    }

    /// The record that bytes stand for.
    ///
    /// ```
    /// # use gadulnos::raw::*;
    /// assert!(User::unpack(&[0; User::BYTES]).is_some());
    /// assert!(User::unpack(&[]).is_none());
    /// ```
    pub fn unpack(bytes: &[u8]) -> Option<User> {
        if bytes.len() != User::BYTES {
            return None;
        }
        let slots = std::array::from_fn(|i| Region {
            start: word(bytes, 16 + 24 * i),
            size: word(bytes, 24 + 24 * i),
            prot: half(bytes, 32 + 24 * i),
            flags: half(bytes, 36 + 24 * i),
        });
        Some(User { count: word(bytes, 0), next_addr: word(bytes, 8), slots })
    }
}

impl Marked {
    /// Its length in bytes.
    pub const BYTES: usize = 8 + 8 * SLOTS;

    /// Its bytes.
    ///
    /// ```
    /// # use gadulnos::raw::*;
    /// # let mut p = Parts::lend(16);
    /// # p.start(0x10_0000, 0x11_0000);
    /// let record = Marked::unpack(&p.marked).expect("a record");
    /// assert_eq!(record.pack(), p.marked);
    /// ```
    pub fn pack(&self) -> Vec<u8> {
        pack_words([self.count].into_iter().chain(self.pages))
    }

    /// The record that bytes stand for.
    ///
    /// ```
    /// # use gadulnos::raw::*;
    /// assert!(Marked::unpack(&[0; Marked::BYTES]).is_some());
    /// assert!(Marked::unpack(&[]).is_none());
    /// ```
    pub fn unpack(bytes: &[u8]) -> Option<Marked> {
        let fits = bytes.len() == Marked::BYTES;
        let pages = || std::array::from_fn(|i| word(bytes, 8 + 8 * i));
        fits.then(|| Marked { count: word(bytes, 0), pages: pages() })
    }
}
