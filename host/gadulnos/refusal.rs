//! Why a call was refused: document 01's numbers.

use crate::raw::{Found, Line};
use std::error::Error;
use std::fmt::{self, Display, Formatter};

/// Declares the refusals: number, case, name in the documents, words.
macro_rules! refusals {
    ($($number:literal $case:ident $name:literal $words:literal;)*) => {
        /// Why a call was refused. docs/NUMBERS.md says of each call which come in which order.
        ///
        /// ```
        /// use gadulnos::Refusal;
        ///
        /// let refusal = Refusal::RegionNotFound;
        /// assert_eq!(refusal.number(), 16);
        /// assert_eq!(refusal.to_string(), "16 REGION_NOT_FOUND: there is no such region");
        /// ```
        #[derive(Clone, Copy, Debug, PartialEq, Eq, PartialOrd, Ord, Hash)]
        #[non_exhaustive]
        pub enum Refusal {
            $(#[doc = concat!($number, ": ", $words, ".")] $case = $number,)*
        }

        impl Refusal {
            /// All of them, by their numbers.
            ///
            /// ```
            /// # use gadulnos::Refusal;
            /// assert_eq!(Refusal::ALL.len(), 19);
            /// ```
            pub const ALL: &'static [Refusal] = &[$(Refusal::$case,)*];

            /// Its name in the documents.
            ///
            /// ```
            /// # use gadulnos::Refusal;
            /// assert_eq!(Refusal::SizeZero.name(), "SIZE_ZERO");
            /// ```
            pub const fn name(self) -> &'static str {
                match self {
                    $(Refusal::$case => $name,)*
                }
            }

            /// Its case in words.
            ///
            /// ```
            /// # use gadulnos::Refusal;
            /// assert_eq!(Refusal::NoFreeFrame.words(), "no frame is free");
            /// ```
            pub const fn words(self) -> &'static str {
                match self {
                    $(Refusal::$case => $words,)*
                }
            }
        }
    };
}

refusals! {
    1 SizeZero "SIZE_ZERO" "the size is 0";
    2 Unaligned "UNALIGNED" "the address is no multiple of 4096";
    3 TooLarge "TOO_LARGE" "the size or the range is too large";
    4 HugeUnaligned "HUGE_UNALIGNED" "an address is no multiple of the huge page's size";
    5 ReservedBit "RESERVED_BIT" "the error code has the reserved bit";
    6 InvalidAddress "INVALID_ADDRESS" "the address lies outside the ranges that faults are met in";
    7 InstructionFetch "INSTRUCTION_FETCH" "an instruction fetch that may not be";
    8 ProtectionViolation "PROTECTION_VIOLATION" "an access to a page that is present, and no write";
    10 BrokenRecord "BROKEN_RECORD" "a part stands for no board";
    11 NoFreeFrame "NO_FREE_FRAME" "no frame is free";
    12 AlreadyMapped "ALREADY_MAPPED" "the page is mapped already";
    13 MapPageFailed "MAP_PAGE_FAILED" "a frame could not be mapped";
    14 NotMapped "NOT_MAPPED" "the address is not mapped";
    15 NoRegion "NO_REGION" "no range is free that is large enough";
    16 RegionNotFound "REGION_NOT_FOUND" "there is no such region";
    17 WriteToReadOnly "WRITE_TO_READ_ONLY" "a write to a page that is present and not marked copy-on-write";
    18 PageTableError "PAGE_TABLE_ERROR" "a frame could not be mapped or a page not be read";
    19 Outside "OUTSIDE" "the walk comes to a table outside the board's frames";
    20 ListFull "LIST_FULL" "the list has 256 entries";
}

impl Refusal {
    /// What a number stands for; nothing for 0, 9 and numbers above 20.
    ///
    /// ```
    /// # use gadulnos::Refusal;
    /// assert_eq!(Refusal::of(19), Some(Refusal::Outside));
    /// assert_eq!(Refusal::of(9), None);
    /// ```
    pub fn of(number: u64) -> Option<Refusal> {
        Refusal::ALL.iter().copied().find(|refusal| refusal.number() == number)
    }

    /// Its number.
    ///
    /// ```
    /// # use gadulnos::Refusal;
    /// assert_eq!(Refusal::ListFull.number(), 20);
    /// ```
    pub const fn number(self) -> u64 {
        self as u64
    }

    /// A call's value, or why it has none.
    pub(crate) fn value(line: Line) -> Result<u64, Refusal> {
        Refusal::met(line.number).map(|()| line.value)
    }

    /// That a call without a value was met.
    pub(crate) fn done(line: Line) -> Result<(), Refusal> {
        Refusal::met(line.number)
    }

    /// That a call was met, or why not. A number that no call answers counts as a broken record.
    pub(crate) fn met(number: u64) -> Result<(), Refusal> {
        match number {
            0 => Ok(()),
            _ => Err(Refusal::of(number).unwrap_or(Refusal::BrokenRecord)),
        }
    }

    /// That a call that gives frames back was met.
    pub(crate) fn of_found(found: Found) -> Result<Found, Refusal> {
        Refusal::met(found.number).map(|()| found)
    }
}

/// As in `16 REGION_NOT_FOUND: there is no such region`.
impl Display for Refusal {
    fn fmt(&self, f: &mut Formatter) -> fmt::Result {
        write!(f, "{} {}: {}", self.number(), self.name(), self.words())
    }
}

impl Error for Refusal {}
