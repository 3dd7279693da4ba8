//! Addresses and frames, each of a type of its own.

use crate::raw;
use std::fmt::{self, Debug, Display, Formatter, LowerHex};

/// Declares a number with a type of its own, shown in hexadecimal.
macro_rules! number {
    ($(#[$about:meta])* $name:ident) => {
        $(#[$about])*
        #[derive(Clone, Copy, Default, PartialEq, Eq, PartialOrd, Ord, Hash)]
        pub struct $name(u64);

        impl $name {
            /// Any number is one.
            ///
            /// ```
            #[doc = concat!("# use gadulnos::", stringify!($name), ";")]
            #[doc = concat!("assert_eq!(", stringify!($name), "::new(7).get(), 7);")]
            /// ```
            pub const fn new(number: u64) -> $name {
                $name(number)
            }

            /// The number.
            ///
            /// ```
            #[doc = concat!("# use gadulnos::", stringify!($name), ";")]
            #[doc = concat!("assert_eq!(", stringify!($name), "::from(7).get(), 7);")]
            /// ```
            pub const fn get(self) -> u64 {
                self.0
            }

            /// The one so many further on; nothing past 64 bits.
            ///
            /// ```
            #[doc = concat!("use gadulnos::", stringify!($name), ";")]
            ///
            #[doc = concat!("let first = ", stringify!($name), "::new(0x1000);")]
            #[doc = concat!("assert_eq!(first.checked_add(0x10), Some(", stringify!($name), "::new(0x1010)));")]
            /// assert_eq!(first.checked_add(u64::MAX), None);
            /// ```
            pub const fn checked_add(self, further: u64) -> Option<$name> {
                match self.0.checked_add(further) {
                    Some(number) => Some($name(number)),
                    None => None,
                }
            }
        }

        impl Display for $name {
            fn fmt(&self, f: &mut Formatter) -> fmt::Result {
                write!(f, "{:#x}", self.0)
            }
        }

        impl Debug for $name {
            fn fmt(&self, f: &mut Formatter) -> fmt::Result {
                write!(f, concat!(stringify!($name), "({:#x})"), self.0)
            }
        }

        impl LowerHex for $name {
            fn fmt(&self, f: &mut Formatter) -> fmt::Result {
                LowerHex::fmt(&self.0, f)
            }
        }

        impl From<u64> for $name {
            fn from(number: u64) -> $name {
                $name(number)
            }
        }

        impl From<$name> for u64 {
            fn from(number: $name) -> u64 {
                number.0
            }
        }
    };
}

number! {
    /// An address that the page tables translate.
    ///
    /// ```
    /// use gadulnos::VirtAddr;
    ///
    /// let addr = VirtAddr::new(0x1234);
    /// assert_eq!((addr.page(), addr.offset()), (VirtAddr::new(0x1000), 0x234));
    /// assert_eq!(addr.to_string(), "0x1234");
    /// ```
    VirtAddr
}

number! {
    /// An address of physical memory.
    ///
    /// ```
    /// use gadulnos::{Frame, PhysAddr};
    ///
    /// assert_eq!(PhysAddr::new(0x10_1010).frame(), Frame::new(0x101));
    /// ```
    PhysAddr
}

number! {
    /// The number of a frame: 4096 bytes of physical memory.
    ///
    /// ```
    /// use gadulnos::{Frame, PhysAddr};
    ///
    /// assert_eq!(Frame::new(0x101).start(), PhysAddr::new(0x10_1000));
    /// ```
    Frame
}

impl VirtAddr {
    /// The first address of its page.
    ///
    /// ```
    /// # use gadulnos::VirtAddr;
    /// assert_eq!(VirtAddr::new(0x1fff).page(), VirtAddr::new(0x1000));
    /// ```
    pub fn page(self) -> VirtAddr {
        VirtAddr(raw::align_down(self.0, 4096))
    }

    /// Its place in its page.
    ///
    /// ```
    /// # use gadulnos::VirtAddr;
    /// assert_eq!(VirtAddr::new(0x1fff).offset(), 0xfff);
    /// ```
    pub fn offset(self) -> u64 {
        raw::page_offset(self.0)
    }

    /// Whether it lies in the window that vmalloc gives out.
    ///
    /// ```
    /// # use gadulnos::VirtAddr;
    /// assert!(VirtAddr::new(0xffff_ffc0_0000_0000).is_vmalloc());
    /// assert!(!VirtAddr::new(0xffff_ffe0_0000_0000).is_vmalloc());
    /// ```
    pub fn is_vmalloc(self) -> bool {
        raw::is_vmalloc_addr(self.0)
    }
}

impl PhysAddr {
    /// The frame that holds it.
    ///
    /// ```
    /// # use gadulnos::{Frame, PhysAddr};
    /// assert_eq!(PhysAddr::new(0x1fff).frame(), Frame::new(1));
    /// ```
    pub fn frame(self) -> Frame {
        Frame(raw::containing_address(self.0))
    }
}

impl Frame {
    /// Its first address, cut to 64 bits.
    ///
    /// ```
    /// # use gadulnos::{Frame, PhysAddr};
    /// assert_eq!(Frame::new(2).start(), PhysAddr::new(0x2000));
    /// assert_eq!(Frame::new(1 << 52).start(), PhysAddr::new(0));
    /// ```
    pub fn start(self) -> PhysAddr {
        PhysAddr(raw::start_address(self.0))
    }
}
