//! A board: the memory that the calls work on. Its calls stand in the modules below.

mod frames;
mod pages;
mod regions;
mod view;

use crate::raw::{Parts, Told};
use crate::{Levels, PhysAddr, Refusal};
use calls::Call;
pub use view::{KernelRegion, Link, Place, Table, UserRegion};

/// All that the calls work on: the frames' words, the frame record with its bitmap, the root, both region lists and the
/// copy-on-write pages. It begins with a start and only the calls change it, so that its parts always fit each other.
///
/// ```
/// use gadulnos::{Board, Levels, PhysAddr};
///
/// let board = Board::start(PhysAddr::new(0x10_0000), PhysAddr::new(0x11_0000), Levels::Four)?;
/// let mut other = board.clone();
/// other.vmalloc(1)?;
/// assert!(board != other);
/// # Ok::<(), gadulnos::Refusal>(())
/// ```
pub struct Board {
    parts: Parts,
}

impl Clone for Board {
    fn clone(&self) -> Board {
        Board { parts: self.parts.clone() }
    }

    /// Copies into the memory that is there.
    fn clone_from(&mut self, other: &Board) {
        self.parts.clone_from(&other.parts);
    }
}

impl Board {
    /// A fresh board on the frames of memory `from` to `to`. It has 8192 frames at most, whatever the memory.
    ///
    /// ```
    /// use gadulnos::{Board, Levels, PhysAddr, Refusal};
    ///
    /// let (from, to) = (PhysAddr::new(0x10_0000), PhysAddr::new(0x11_0000));
    /// assert_eq!(Board::start(from, to, Levels::Five)?.total_frames(), 16);
    /// assert_eq!(Board::start(from, from, Levels::Four), Err(Refusal::NoFreeFrame));
    /// assert_eq!(Board::start(to, from, Levels::Four), Err(Refusal::BrokenRecord));
    /// # Ok::<(), Refusal>(())
    /// ```
    pub fn start(from: PhysAddr, to: PhysAddr, levels: Levels) -> Result<Board, Refusal> {
        let (from, to) = (from.get(), to.get());
        // A record alone tells how many frames the memory has.
        let mut parts = Parts::lend(0);
        Refusal::done(parts.init(from, to))?;
        let mut parts = Parts::lend(parts.frames().total as usize);
        Refusal::done(parts.start_levels(from, to, levels.get()))?;
        Ok(Board { parts })
    }

    /// The parts as the C functions are lent them.
    ///
    /// ```
    /// # use gadulnos::*;
    /// # let board = Board::start(PhysAddr::new(0x10_0000), PhysAddr::new(0x11_0000), Levels::Four)?;
    /// assert_eq!(board.parts().words.len(), 16 * 512);
    /// # Ok::<(), Refusal>(())
    /// ```
    pub fn parts(&self) -> &Parts {
        &self.parts
    }

    /// The parts by themselves. What becomes of them then is their owner's concern.
    ///
    /// ```
    /// # use gadulnos::*;
    /// # let board = Board::start(PhysAddr::new(0x10_0000), PhysAddr::new(0x11_0000), Levels::Four)?;
    /// let mut parts = board.into_parts();
    /// parts.words[0] = 1;
    /// assert_eq!(parts.translate(0).number, Refusal::Outside.number());
    /// # Ok::<(), Refusal>(())
    /// ```
    pub fn into_parts(self) -> Parts {
        self.parts
    }

    /// Makes a call that a paper lists: its number and value, and what it found of the frames that it gave back.
    ///
    /// ```
    /// # use gadulnos::*;
    /// # let mut board = Board::start(PhysAddr::new(0x10_0000), PhysAddr::new(0x11_0000), Levels::Four)?;
    /// use calls::Call;
    /// let told = board.play(&Call::Vmalloc { size: 1 });
    /// assert_eq!(told.line.value, 0xffff_ffc0_0000_0000);
    /// # Ok::<(), Refusal>(())
    /// ```
    pub fn play(&mut self, call: &Call) -> Told {
        self.parts.play(call)
    }
}

/// Two boards are equal if every byte and word of every part is.
impl PartialEq for Board {
    fn eq(&self, other: &Board) -> bool {
        self.parts == other.parts
    }
}

impl Eq for Board {}
