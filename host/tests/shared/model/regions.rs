//! vmalloc, vfree, mmap and munmap.

use super::memory::{entry, Memory};
use super::{is_misplaced, Answer, Giving, Model, BROKEN};
use calls::{LAST, PAGE, USER_WINDOW};
use gadulnos::raw::{Kernel, Region, Slot, SLOTS};
use trial::state::is_multiple;

pub const NO_SLOT: Slot = Slot { start: 0, size: 0, used: false };
pub const NO_REGION: Region = Region { start: 0, size: 0, prot: 0, flags: 0 };

pub const PROT_WRITE: i32 = 2;
const MAP_FIXED: i32 = 0x10;

impl Model {
    /// The list, if all that vmalloc and vfree are lent is sound.
    fn sound_kernel(&mut self) -> Result<Vec<Slot>, u64> {
        let whole = self.is_whole();
        let kernel = self.kernel.as_ref().filter(|_| whole).ok_or(BROKEN)?;
        let count = usize::try_from(kernel.count).ok().filter(|&n| n <= SLOTS).ok_or(BROKEN)?;
        let (listed, past) = kernel.slots.split_at(count);
        let misplaced = listed.iter().any(|slot| is_misplaced(slot.start, slot.size));
        match misplaced || past.iter().any(|slot| *slot != NO_SLOT) {
            true => Err(BROKEN),
            false => Ok(listed.to_vec()),
        }
    }

    fn store_kernel(&mut self, list: &[Slot]) {
        let mut slots = [NO_SLOT; SLOTS];
        slots[..list.len()].copy_from_slice(list);
        self.kernel = Some(Kernel { count: list.len() as u64, slots });
    }

    pub fn vmalloc(&mut self, size: u64) -> Answer {
        let mut list = self.sound_kernel()?;
        let size = rounded(size)?;
        let fits = |slot: &Slot| !slot.used && slot.size >= size;
        let i = list.iter().position(fits).ok_or(15u64)?;
        let Slot { start, size: whole, .. } = list[i];
        if whole > size && list.len() < SLOTS {
            let rest = Slot { start: start + size, size: whole - size, used: false };
            list.insert(i + 1, rest);
        }
        let mapped = self.change(|memory| map_pages(memory, start, size / PAGE, true, false));
        list[i] = Slot { start, size, used: mapped.is_ok() };
        self.store_kernel(&list);
        mapped.map(|()| start).map_err(|(number, _)| number)
    }

    pub fn vfree(&mut self, addr: u64) -> Giving {
        let mut list = self.sound_kernel()?;
        let known = |slot: &Slot| slot.start == addr && slot.used && addr != 0;
        let i = list.iter().position(known).ok_or(16u64)?;
        let pages = list[i].size / PAGE;
        let tally = self.change(|memory| memory.release(addr, pages));
        self.gave_up |= tally.is_none();
        list[i].used = false;
        merge(&mut list);
        self.store_kernel(&list);
        Ok(tally.unwrap_or_default())
    }

    /// The regions, if all that mmap and munmap are lent is sound.
    fn sound_user(&mut self) -> Result<(Vec<Region>, u64), u64> {
        match self.is_whole() {
            true => self.sound_list(),
            false => Err(BROKEN),
        }
    }

    /// The mmap list alone.
    pub fn sound_list(&self) -> Result<(Vec<Region>, u64), u64> {
        let user = self.user.as_ref().ok_or(BROKEN)?;
        let count = usize::try_from(user.count).ok().filter(|&n| n <= SLOTS).ok_or(BROKEN)?;
        let listed = &user.slots[..count];
        let sound = listed.windows(2).all(|pair| pair[0].start < pair[1].start)
            && !listed.iter().any(|region| is_misplaced(region.start, region.size))
            && user.next_addr % PAGE == 0;
        match sound {
            true => Ok((listed.to_vec(), user.next_addr)),
            false => Err(BROKEN),
        }
    }

    /// The search by itself, and how many regions it compared, if it ran.
    pub fn find_free_region(&self, size: u64) -> (Answer, Option<u64>) {
        match self.sound_list() {
            Ok((list, next_addr)) => {
                let (found, compared) = search(&list, next_addr, size);
                (found, Some(compared))
            }
            Err(number) => (Err(number), None),
        }
    }

    /// 'a removal zeroes the slot that falls past the count'; the others past it stay.
    pub fn store_user(&mut self, list: &[Region], next_addr: u64) {
        let user = self.user.as_mut().expect("a sound list");
        let count = user.count as usize;
        user.slots[list.len().min(count)..count].fill(NO_REGION);
        user.slots[..list.len()].copy_from_slice(list);
        user.count = list.len() as u64;
        user.next_addr = next_addr;
    }

    pub fn mmap(&mut self, wish: Option<u64>, size: u64, prot: i32, flags: i32) -> Answer {
        let (mut list, next_addr) = self.sound_user()?;
        let size = rounded(size)?;
        let start = choose(&list, next_addr, wish, size, flags)?;
        let known = list.binary_search_by_key(&start, |region| region.start);
        if list.len() >= SLOTS && known.is_err() {
            return Err(20);
        }
        let writable = prot & PROT_WRITE != 0;
        let mapped = self.change(|memory| {
            let mapped = map_pages(memory, start, size / PAGE, writable, true);
            if let Err((13, done)) = mapped {
                for i in 0..done {
                    let _ = memory.unmap(start + i * PAGE);
                }
            }
            mapped
        });
        mapped.map_err(|(number, _)| number)?;
        let region = Region { start, size, prot, flags };
        match known {
            Ok(i) => list[i] = region,
            Err(i) => list.insert(i, region),
        }
        self.store_user(&list, start + size);
        Ok(start)
    }

    pub fn munmap(&mut self, addr: u64, size: u64) -> Giving {
        let (mut list, next_addr) = self.sound_user()?;
        let i = named(&list, addr, size)?;
        let pages = list.remove(i).size / PAGE;
        let tally = self.change(|memory| memory.release(addr, pages));
        self.gave_up |= tally.is_none();
        self.store_user(&list, next_addr);
        Ok(tally.unwrap_or_default())
    }
}

/// The region that has this start and, rounded, this size: '1, 2, 3, 16'.
pub fn named(list: &[Region], addr: u64, size: u64) -> Result<usize, u64> {
    if size != 0 && !is_multiple(addr, PAGE) {
        return Err(2);
    }
    let size = rounded(size)?;
    list.iter().position(|region| region.start == addr && region.size == size).ok_or(16)
}

/// A size in whole pages: 1 for 0, 3 above 2^64 - 4096.
fn rounded(size: u64) -> Answer {
    match size {
        0 => Err(1),
        _ if size > LAST => Err(3),
        _ => Ok((size + (PAGE - 1)) / PAGE * PAGE),
    }
}

/// Maps pages to fresh frames. On a refusal, its number and how many pages stand: 11 where a page
/// has no frame, 13 where its frame cannot be mapped.
fn map_pages(
    memory: &mut Memory,
    start: u64,
    pages: u64,
    writable: bool,
    user: bool,
) -> Result<(), (u64, u64)> {
    for i in 0..pages {
        let frame = memory.take().map_err(|number| (number, i))?;
        memory.zero(frame);
        let entry = entry(frame * PAGE, writable, user);
        memory.map(start + i * PAGE, entry).map_err(|_| (13, i))?;
    }
    Ok(())
}

/// Joins adjoining free neighbours, from left to right.
fn merge(list: &mut Vec<Slot>) {
    let mut merged: Vec<Slot> = Vec::new();
    for slot in list.drain(..) {
        match merged.last_mut() {
            Some(last) if !last.used && !slot.used && last.start + last.size == slot.start => {
                last.size += slot.size;
            }
            _ => merged.push(slot),
        }
    }
    *list = merged;
}

/// Where a region goes: '2, 3 for the range, 15'.
fn choose(list: &[Region], next_addr: u64, wish: Option<u64>, size: u64, flags: i32) -> Answer {
    let addr = match wish {
        Some(addr) => addr,
        None => return search(list, next_addr, size).0,
    };
    let fixed = flags & MAP_FIXED != 0;
    if addr % PAGE != 0 {
        return if fixed { Err(2) } else { search(list, next_addr, size).0 };
    }
    if addr > LAST - size {
        return Err(3);
    }
    match !fixed && overlapped(list, addr.into(), size).is_some() {
        true => search(list, next_addr, size).0,
        false => Ok(addr),
    }
}

/// The first region that a range overlaps: its place and its end.
fn overlapped(list: &[Region], start: u128, size: u64) -> Option<(usize, u128)> {
    let ends = |region: &Region| u128::from(region.start) + u128::from(region.size);
    let end = start + u128::from(size);
    let found = list.iter().position(|r| start < ends(r) && end > r.start.into());
    found.map(|place| (place, ends(&list[place])))
}

/// Where a range is free, and how many regions were compared.
fn search(list: &[Region], next_addr: u64, size: u64) -> (Answer, u64) {
    let mut addr = u128::from(next_addr);
    let mut compared = 0;
    while addr + u128::from(size) < USER_WINDOW.1.into() {
        match overlapped(list, addr, size) {
            Some((place, end)) => {
                compared += place as u64 + 1;
                addr = end;
            }
            None => return (Ok(addr as u64), compared + list.len() as u64),
        }
    }
    (Err(15), compared)
}
