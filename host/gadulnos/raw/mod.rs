//! The C functions of `libdesk.a` (`host/library.sh` makes it) as they are: on numbers, words and packed bytes, with
//! document 01's numbers for answers, the packed layout of a board's state, and the parts that the functions are lent.
//! docs/LAYOUT.md explains both.
//!
//! Nothing is asked of any argument. A call that cannot be met answers with a number of docs/NUMBERS.md and
//! changes nothing but the leftovers listed there; parts that stand for no sound record are answered
//! with 10 and stay as they are.
//!
//! ```
//! use gadulnos::raw::{Frames, Line, Parts};
//!
//! let mut parts = Parts::lend(16);
//! assert_eq!(parts.vmalloc(1), Line::refused(10));
//! assert_eq!(parts.start(0x10_0000, 0x11_0000), Line::met(0));
//! assert_eq!(parts.vmalloc(1), Line::met(0xffff_ffc0_0000_0000));
//! assert_eq!(Frames::unpack(&parts.fields).map(|record| record.allocated), Some(5));
//! ```

mod found;
mod layout;
mod parts;
mod play;
mod told;
mod working;

pub use found::{Finding, Found};
pub use layout::*;
pub use memory::*;
pub use numbers::*;
pub use parts::Parts;
pub use regions::*;
pub use told::{TallyNumbers, Told, NONE};
pub use working::{Row, Shown, Verdict, SHOWN_NUMBERS};

/// A call's answer: its number, 0 if met, and its value, 0 if none.
#[repr(C)]
#[derive(Clone, Copy, Debug, PartialEq, Eq)]
pub struct Line {
    /// Document 01's number, 0 if the call was met.
    pub number: u64,
    /// The value, 0 if there is none.
    pub value: u64,
}

impl Line {
    /// A met call's.
    ///
    /// ```
    /// # use gadulnos::raw::*;
    /// assert_eq!(Line::met(5), Line { number: 0, value: 5 });
    /// ```
    pub const fn met(value: u64) -> Line {
        Line { number: 0, value }
    }

    /// A refused call's.
    ///
    /// ```
    /// # use gadulnos::raw::*;
    /// assert_eq!(Line::refused(5), Line { number: 5, value: 0 });
    /// ```
    pub const fn refused(number: u64) -> Line {
        Line { number, value: 0 }
    }
}

/// Declares each C function and a safe function over it. In C a slice is two arguments, a pointer and
/// the number of elements; a reference to an array or a number is a pointer.
macro_rules! functions {
    ($($(#[$about:meta])* fn $name:ident = $c_name:ident($($args:tt)*) -> $result:ty;)*) => {
        $(function! { [$(#[$about])* $name $c_name $result] [] [] [] $($args)*, })*
    };
}

/// One of them: the arguments of the safe function, of the C function and of the call, one by one.
macro_rules! function {
    ($head:tt [$($safe:tt)*] [$($c:tt)*] [$($pass:tt)*] $arg:ident: &[$item:ty], $($rest:tt)*) => {
        function! {
            $head [$($safe)* $arg: &[$item],] [$($c)* $arg: *const $item, _: usize,]
            [$($pass)* $arg.as_ptr(), $arg.len(),] $($rest)*
        }
    };
    ($head:tt [$($safe:tt)*] [$($c:tt)*] [$($pass:tt)*] $arg:ident: &mut [$item:ty], $($rest:tt)*) => {
        function! {
            $head [$($safe)* $arg: &mut [$item],] [$($c)* $arg: *mut $item, _: usize,]
            [$($pass)* $arg.as_mut_ptr(), $arg.len(),] $($rest)*
        }
    };
    ($head:tt [$($safe:tt)*] [$($c:tt)*] [$($pass:tt)*] $arg:ident: $kind:ty, $($rest:tt)*) => {
        function! { $head [$($safe)* $arg: $kind,] [$($c)* $arg: $kind,] [$($pass)* $arg,] $($rest)* }
    };
    (
        [$(#[$about:meta])* $name:ident $c_name:ident $result:ty]
        [$($safe:tt)*] [$($c:tt)*] [$($pass:tt)*]
    ) => {
        extern "C" {
            fn $c_name($($c)*) -> $result;
        }
        $(#[$about])*
        #[allow(clippy::too_many_arguments)]
        pub fn $name($($safe)*) -> $result {
            // SAFETY: the function is proved for all arguments of these types, and reaches what the
            // slices and references lend it and nothing else.
            unsafe { $c_name($($pass)*) }
        }
    };
}

#[link(name = "desk", kind = "static")]
extern "C" {}

// Behind the macros that they use.
mod memory;
mod numbers;
mod regions;
