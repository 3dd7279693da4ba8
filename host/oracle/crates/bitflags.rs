//! Stands in for the crate `bitflags`: what the one use in page_fault.rs needs.

#![no_std]

#[macro_export]
macro_rules! bitflags {
    (
        $(#[$about:meta])*
        $visible:vis struct $Name:ident: $Bits:ty {
            $(const $FLAG:ident = $bit:expr;)*
        }
    ) => {
        $(#[$about])*
        #[derive(Clone, Copy, PartialEq, Eq)]
        $visible struct $Name {
            bits: $Bits,
        }

        impl $Name {
            $(pub const $FLAG: $Name = $Name { bits: $bit };)*

            pub const fn contains(&self, other: $Name) -> bool {
                self.bits & other.bits == other.bits
            }
        }

        impl core::ops::BitOr for $Name {
            type Output = $Name;
            fn bitor(self, other: $Name) -> $Name {
                $Name { bits: self.bits | other.bits }
            }
        }
    };
}
