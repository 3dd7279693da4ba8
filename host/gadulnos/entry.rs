//! Entries of page tables.

use crate::{raw, Frame, PhysAddr};
use std::fmt::{self, Debug, Display, Formatter};

/// A word of a page table, read as an entry.
///
/// ```
/// use gadulnos::{Entry, Frame, PhysAddr};
///
/// let entry = Entry::new(0x10_1003);
/// assert!(entry.is_present() && entry.is_writable() && !entry.is_user() && !entry.is_huge());
/// assert_eq!((entry.addr(), entry.frame()), (PhysAddr::new(0x10_1000), Frame::new(0x101)));
/// assert_eq!(entry.to_string(), "0x101003 PRESENT WRITABLE");
/// assert_eq!(Entry::new(0).flags(), "-");
/// ```
#[derive(Clone, Copy, Default, PartialEq, Eq, Hash)]
pub struct Entry(u64);

impl Entry {
    /// Any word is one.
    ///
    /// ```
    /// # use gadulnos::*;
    /// assert_eq!(Entry::new(3).word(), 3);
    /// ```
    pub const fn new(word: u64) -> Entry {
        Entry(word)
    }

    /// The word.
    ///
    /// ```
    /// # use gadulnos::*;
    /// assert_eq!(Entry::new(0x10_1003).word(), 0x10_1003);
    /// ```
    pub const fn word(self) -> u64 {
        self.0
    }

    /// Whether it names anything.
    ///
    /// ```
    /// # use gadulnos::*;
    /// assert!(Entry::new(1).is_present());
    /// ```
    pub fn is_present(self) -> bool {
        raw::entry_present(self.0)
    }

    /// Whether what lies below it may be written.
    ///
    /// ```
    /// # use gadulnos::*;
    /// assert!(!Entry::new(1).is_writable());
    /// ```
    pub fn is_writable(self) -> bool {
        raw::entry_writable(self.0)
    }

    /// Whether user code may use what lies below it.
    ///
    /// ```
    /// # use gadulnos::*;
    /// assert!(Entry::new(4).is_user());
    /// ```
    pub fn is_user(self) -> bool {
        raw::entry_user(self.0)
    }

    /// Whether it has the HUGE bit.
    ///
    /// ```
    /// # use gadulnos::*;
    /// assert!(Entry::new(0x80).is_huge());
    /// ```
    pub fn is_huge(self) -> bool {
        raw::entry_huge(self.0)
    }

    /// The physical address that it names.
    ///
    /// ```
    /// # use gadulnos::*;
    /// assert_eq!(Entry::new(0x10_1003).addr(), PhysAddr::new(0x10_1000));
    /// ```
    pub fn addr(self) -> PhysAddr {
        PhysAddr::new(raw::entry_addr(self.0))
    }

    /// The frame of that address.
    ///
    /// ```
    /// # use gadulnos::*;
    /// assert_eq!(Entry::new(0x10_1003).frame(), Frame::new(0x101));
    /// ```
    pub fn frame(self) -> Frame {
        self.addr().frame()
    }

    /// Its flags by their names, as in `PRESENT WRITABLE`; `-` if there is none of them.
    ///
    /// ```
    /// # use gadulnos::*;
    /// assert_eq!(Entry::new(7).flags(), "PRESENT WRITABLE USER");
    /// ```
    pub fn flags(self) -> String {
        let names = [
            (self.is_present(), "PRESENT"),
            (self.is_writable(), "WRITABLE"),
            (self.is_user(), "USER"),
            (self.is_huge(), "HUGE"),
        ];
        let set: Vec<&str> = names.iter().filter(|(set, _)| *set).map(|(_, name)| *name).collect();
        if set.is_empty() {
            "-".to_string()
        } else {
            set.join(" ")
        }
    }
}

/// As in `0x101003 PRESENT WRITABLE`.
impl Display for Entry {
    fn fmt(&self, f: &mut Formatter) -> fmt::Result {
        write!(f, "{:#x} {}", self.0, self.flags())
    }
}

impl Debug for Entry {
    fn fmt(&self, f: &mut Formatter) -> fmt::Result {
        write!(f, "Entry({:#x})", self.0)
    }
}
