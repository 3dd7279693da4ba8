//! Reads page tables as they will stand in the midst of a call: the board's own words
//! under the changes that the call will have made so far. Of an entry it keeps what a walk
//! looks at: the address, PRESENT and HUGE. There are four levels: on five nothing is foreseen.

use crate::state::{bit, State, BITMAP_WORDS};
use calls::PAGE;
use std::collections::HashMap;

pub const PRESENT: u64 = 1;
pub const HUGE: u64 = 128;
const ADDR_MASK: u64 = 0x000F_FFFF_FFFF_F000;

/// A walk met a table outside the lent frames.
pub struct OffBoard;

/// One entry: the index of its table's frame on the board, and its own in the table.
#[derive(Clone, Copy)]
struct Place {
    table: usize,
    index: usize,
}

/// A frame that the call has changed so far.
#[derive(Default)]
struct Changed {
    zeroed: bool,
    words: HashMap<usize, u64>,
}

pub struct Reader<'a> {
    /// The state before the call.
    pub state: &'a State<'a>,
    pub bitmap: [u64; BITMAP_WORDS],
    changed: HashMap<usize, Changed>,
    /// Whether a frame marked free was reached as a table.
    pub free_table: bool,
    /// Whether a page was copied that the domain leaves out.
    pub bad_copy: bool,
    /// With which number a call that backs pages is turned away: 11 or 13.
    pub turned_away: Option<u32>,
}

/// The four indices of a page address.
pub fn indices(virt: u64) -> [usize; 4] {
    [39, 30, 21, 12].map(|shift| (virt >> shift) as usize & 511)
}

impl<'a> Reader<'a> {
    pub fn new(state: &'a State<'a>) -> Self {
        Reader {
            state,
            bitmap: state.bitmap,
            changed: HashMap::new(),
            free_table: false,
            bad_copy: false,
            turned_away: None,
        }
    }

    /// Takes the lowest free frame.
    pub fn take(&mut self) -> Option<u64> {
        let word = self.bitmap.iter().position(|word| *word != u64::MAX)?;
        let index = word * 64 + self.bitmap[word].trailing_ones() as usize;
        let frame = self.state.start_frame + index as u64;
        self.mark(frame);
        self.state.lent(frame).map(|_| frame)
    }

    pub fn mark(&mut self, frame: u64) {
        if let Some(index) = self.state.lent(frame) {
            self.bitmap[index / 64] |= 1 << (index % 64);
        }
    }

    pub fn free(&mut self, frame: u64) {
        if let Some(index) = self.state.lent(frame) {
            self.bitmap[index / 64] &= !(1 << (index % 64));
        }
    }

    pub fn zero(&mut self, frame: u64) {
        if let Some(index) = self.state.lent(frame) {
            self.changed.insert(index, Changed { zeroed: true, words: HashMap::new() });
        }
    }

    /// Copies a lent frame's words into another.
    pub fn copy(&mut self, from: usize, to: u64) {
        if let Some(to) = self.state.lent(to) {
            let words = (0..512).map(|index| (index, self.word(Place { table: from, index })));
            let words = words.collect();
            self.changed.insert(to, Changed { zeroed: true, words });
        }
    }

    /// Enters `phys` with `bits` below `depth` tables. False if a table's frame could not
    /// be had or the entry is present.
    pub fn map(&mut self, virt: u64, phys: u64, bits: u64, depth: usize) -> Result<bool, OffBoard> {
        match self.descend(virt, depth, true)? {
            Some(place) if self.word(place) & PRESENT == 0 => {
                self.write(place, phys & ADDR_MASK | bits | PRESENT);
                Ok(true)
            }
            _ => Ok(false),
        }
    }

    /// Enters a page whatever its entry holds. False if a table's frame could not be had.
    pub fn overwrite(&mut self, virt: u64, phys: u64) -> Result<bool, OffBoard> {
        let place = self.descend(virt, 3, true)?;
        if let Some(place) = place {
            self.write(place, phys & ADDR_MASK | PRESENT);
        }
        Ok(place.is_some())
    }

    /// Clears a page's entry and gives its frame, if it is present.
    pub fn unmap(&mut self, virt: u64) -> Result<Option<u64>, OffBoard> {
        match self.descend(virt, 3, false)? {
            Some(place) if self.word(place) & PRESENT != 0 => {
                let frame = (self.word(place) & ADDR_MASK) / PAGE;
                self.write(place, 0);
                Ok(Some(frame))
            }
            _ => Ok(None),
        }
    }

    pub fn translate(&mut self, virt: u64) -> Result<Option<u64>, OffBoard> {
        let mut table = self.root()?;
        for (level, index) in (1..=4).rev().zip(indices(virt)) {
            let place = Place { table, index };
            let word = self.word(place);
            if word & PRESENT == 0 {
                return Ok(None);
            }
            if level == 1 || level == 2 && word & HUGE != 0 {
                let page_size = if level == 1 { PAGE } else { 1 << 21 };
                return Ok(Some((word & ADDR_MASK) + virt % page_size));
            }
            table = self.enter(place)?;
        }
        Ok(None)
    }

    /// Goes down `depth` tables below the root, to the entry that the address has there.
    /// An absent table is made or ends the walk.
    fn descend(&mut self, virt: u64, depth: usize, make: bool) -> Result<Option<Place>, OffBoard> {
        let indices = indices(virt);
        let mut table = self.root()?;
        for &index in &indices[..depth] {
            let place = Place { table, index };
            if self.word(place) & PRESENT == 0 {
                let frame = match make.then(|| self.take()).flatten() {
                    Some(frame) => frame,
                    None => return Ok(None),
                };
                self.zero(frame);
                self.write(place, (frame * PAGE) | PRESENT);
            }
            table = self.enter(place)?;
        }
        Ok(Some(Place { table, index: indices[depth] }))
    }

    fn root(&mut self) -> Result<usize, OffBoard> {
        let index = self.state.lent(self.state.root).ok_or(OffBoard)?;
        self.free_table |= !bit(&self.bitmap, index) || !bit(&self.state.bitmap, index);
        Ok(index)
    }

    /// The table that a present entry leads to. It must be marked, and before the call too
    /// unless this call wrote the entry.
    fn enter(&mut self, place: Place) -> Result<usize, OffBoard> {
        let frame = (self.word(place) & ADDR_MASK) / PAGE;
        let index = self.state.lent(frame).ok_or(OffBoard)?;
        let fresh =
            self.changed.get(&place.table).map_or(false, |c| c.words.contains_key(&place.index));
        self.free_table |= !bit(&self.bitmap, index) || !(bit(&self.state.bitmap, index) || fresh);
        Ok(index)
    }

    fn word(&self, place: Place) -> u64 {
        let changed = self.changed.get(&place.table);
        match changed.and_then(|changed| changed.words.get(&place.index)) {
            Some(word) => *word,
            None if changed.map_or(false, |changed| changed.zeroed) => 0,
            None => self.state.words[place.table * 512 + place.index],
        }
    }

    fn write(&mut self, place: Place, word: u64) {
        self.changed.entry(place.table).or_default().words.insert(place.index, word);
    }
}
