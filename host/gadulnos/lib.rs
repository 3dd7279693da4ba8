//! Gadulnos for a Rust host: the memory manager of the rinux kernel, every call of which is proved to meet its
//! contract. A [`Board`] owns the memory that the calls work on; each call is a method that answers with a value or
//! with a [`Refusal`].
//!
//! ```
//! use gadulnos::{Board, Levels, PhysAddr, Refusal};
//!
//! let mut board = Board::start(PhysAddr::new(0x10_0000), PhysAddr::new(0x11_0000), Levels::Four)?;
//! let region = board.vmalloc(1)?;
//! assert_eq!(region.to_string(), "0xffffffc000000000");
//! assert_eq!(board.translate(region)?, PhysAddr::new(0x10_1000));
//! assert_eq!(board.vfree(region)?.freed, 1);
//! assert_eq!(board.vfree(region), Err(Refusal::RegionNotFound));
//! # Ok::<(), Refusal>(())
//! ```
//!
//! [`raw`] has the C functions as they are, on numbers, words and packed bytes.

#![deny(missing_docs)]

mod address;
mod board;
mod entry;
mod flags;
pub mod raw;
mod refusal;
mod tally;
mod walk;

pub use address::{Frame, PhysAddr, VirtAddr};
pub use board::{Board, KernelRegion, Link, Place, Table, UserRegion};
pub use entry::Entry;
pub use flags::{Access, FaultCode, HugeSize, Levels, MapFlags, Prot, Rights};
pub use raw::Finding;
pub use refusal::Refusal;
pub use tally::Tally;
pub use walk::{Step, Verdict, Walk};
