//! The small arguments of calls: protections, flags, error codes, rights, sizes, levels.

use std::fmt::{self, Debug, Display, Formatter};
use std::ops::{BitOr, BitOrAssign};

/// Declares a set of bits with names. Bits without a name are kept.
macro_rules! bits {
    (
        $(#[$about:meta])* $name:ident($repr:ty), $none:literal,
        $($(#[$of:meta])* $bit:ident $word:literal = $value:literal;)*
    ) => {
        $(#[$about])*
        #[derive(Clone, Copy, Default, PartialEq, Eq, Hash)]
        pub struct $name($repr);

        impl $name {
            $($(#[$of])* pub const $bit: $name = $name($value);)*

            /// The bits that have names, each with its word.
            pub const NAMED: &'static [($name, &'static str)] = &[$(($name::$bit, $word),)*];

            /// No bit.
            ///
            /// ```
            #[doc = concat!("# use gadulnos::", stringify!($name), ";")]
            #[doc = concat!("assert_eq!(", stringify!($name), "::none().bits(), 0);")]
            /// ```
            pub const fn none() -> $name {
                $name(0)
            }

            /// Any bits.
            ///
            /// ```
            #[doc = concat!("# use gadulnos::", stringify!($name), ";")]
            #[doc = concat!("assert_eq!(", stringify!($name), "::from_bits(0x44).bits(), 0x44);")]
            /// ```
            pub const fn from_bits(bits: $repr) -> $name {
                $name(bits)
            }

            /// All its bits.
            ///
            /// ```
            #[doc = concat!("# use gadulnos::", stringify!($name), ";")]
            #[doc = concat!("assert_eq!(", stringify!($name), "::from_bits(3).bits(), 3);")]
            /// ```
            pub const fn bits(self) -> $repr {
                self.0
            }

            /// Whether it has every bit of another.
            ///
            /// ```
            #[doc = concat!("# use gadulnos::", stringify!($name), ";")]
            #[doc = concat!("assert!(", stringify!($name), "::from_bits(3).has(", stringify!($name), "::from_bits(2)));")]
            #[doc = concat!("assert!(!", stringify!($name), "::from_bits(1).has(", stringify!($name), "::from_bits(2)));")]
            /// ```
            pub const fn has(self, other: $name) -> bool {
                self.0 & other.0 == other.0
            }
        }

        impl BitOr for $name {
            type Output = $name;

            fn bitor(self, other: $name) -> $name {
                $name(self.0 | other.0)
            }
        }

        impl BitOrAssign for $name {
            fn bitor_assign(&mut self, other: $name) {
                *self = *self | other;
            }
        }

        /// The words of its bits, and what is left of it as a number.
        impl Display for $name {
            fn fmt(&self, f: &mut Formatter) -> fmt::Result {
                let named = $name::NAMED.iter().filter(|(bit, _)| self.has(*bit));
                let rest = $name::NAMED.iter().fold(self.0, |rest, (bit, _)| rest & !bit.0);
                let mut words: Vec<String> = named.map(|(_, word)| word.to_string()).collect();
                if rest != 0 {
                    words.push(format!("{rest:#x}"));
                }
                f.write_str(if words.is_empty() { $none } else { "" })?;
                f.write_str(&words.join(" "))
            }
        }

        impl Debug for $name {
            fn fmt(&self, f: &mut Formatter) -> fmt::Result {
                write!(f, concat!(stringify!($name), "({:#x})"), self.0)
            }
        }
    };
}

bits! {
    /// A region's protection, as mmap(2) has it. WRITE decides the WRITABLE bit of its pages.
    ///
    /// ```
    /// use gadulnos::Prot;
    ///
    /// let prot = Prot::READ | Prot::WRITE;
    /// assert!(prot.has(Prot::WRITE));
    /// assert_eq!((prot.bits(), prot.to_string()), (3, "read write".to_string()));
    /// assert_eq!(Prot::none().to_string(), "none");
    /// ```
    Prot(i32), "none",
    /// Pages may be read.
    READ "read" = 1;
    /// Pages may be written.
    WRITE "write" = 2;
    /// Pages may be executed.
    EXEC "exec" = 4;
}

bits! {
    /// Flags of an mmap. FIXED alone decides anything.
    ///
    /// ```
    /// use gadulnos::MapFlags;
    ///
    /// let flags = MapFlags::from_bits(0x52);
    /// assert_eq!(flags.to_string(), "private fixed 0x40");
    /// ```
    MapFlags(i32), "none",
    /// Changes are shared.
    SHARED "shared" = 1;
    /// Changes are private.
    PRIVATE "private" = 2;
    /// The region starts at the address given.
    FIXED "fixed" = 0x10;
    /// No file stands behind the region.
    ANONYMOUS "anonymous" = 0x20;
}

bits! {
    /// A page fault's error code.
    ///
    /// ```
    /// use gadulnos::FaultCode;
    ///
    /// assert_eq!((FaultCode::WRITE | FaultCode::USER).bits(), 6);
    /// ```
    FaultCode(u64), "none",
    /// The page is present.
    PRESENT "present" = 1;
    /// The access is a write.
    WRITE "write" = 2;
    /// User code made it.
    USER "user" = 4;
    /// A reserved bit was set in an entry.
    RESERVED "reserved" = 8;
    /// It is an instruction fetch.
    FETCH "fetch" = 16;
}

/// What a mapping lets be done with its page.
///
/// ```
/// use gadulnos::Rights;
///
/// assert_eq!(Rights::default(), Rights { writable: false, user: false });
/// ```
#[derive(Clone, Copy, Debug, Default, PartialEq, Eq, Hash)]
pub struct Rights {
    /// It may be written.
    pub writable: bool,
    /// User code may use it.
    pub user: bool,
}

/// What user code wants of an address. [`Board::user_may`](crate::Board::user_may) is asked with it.
#[derive(Clone, Copy, Debug, PartialEq, Eq, Hash)]
pub enum Access {
    /// To read it.
    Read,
    /// To write it.
    Write,
}

/// The size of a huge page. [`Board::map_huge_page`](crate::Board::map_huge_page) takes it.
#[derive(Clone, Copy, Debug, PartialEq, Eq, Hash)]
pub enum HugeSize {
    /// 2 MiB.
    TwoMib,
    /// 1 GiB.
    OneGib,
}

/// How many levels of page tables a board has.
///
/// ```
/// use gadulnos::Levels;
///
/// assert_eq!(Levels::default(), Levels::Four);
/// ```
#[derive(Clone, Copy, Debug, Default, PartialEq, Eq, PartialOrd, Ord, Hash)]
pub enum Levels {
    /// As rinux has them, and as boards have them if none are named.
    #[default]
    Four = 4,
    /// Of document 02's new boards.
    Five = 5,
}

impl Levels {
    /// The number of levels.
    ///
    /// ```
    /// # use gadulnos::Levels;
    /// assert_eq!(Levels::Five.get(), 5);
    /// ```
    pub const fn get(self) -> u64 {
        self as u64
    }

    /// 4 or 5 levels; nothing for another number.
    ///
    /// ```
    /// # use gadulnos::Levels;
    /// assert_eq!((Levels::of(5), Levels::of(6)), (Some(Levels::Five), None));
    /// ```
    pub const fn of(number: u64) -> Option<Levels> {
        match number {
            4 => Some(Levels::Four),
            5 => Some(Levels::Five),
            _ => None,
        }
    }
}

impl Display for Levels {
    fn fmt(&self, f: &mut Formatter) -> fmt::Result {
        write!(f, "{}", self.get())
    }
}
