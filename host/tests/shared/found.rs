//! What giving frames back found (document 02, slip 5), apart from any model: by direct reading of a board before
//! and after a call, and by its steps made one by one with the calls on pages and frames.

#![allow(dead_code)] // no program uses all of it

use crate::port::Port;
use crate::protected::{frame_of, Tables};
use crate::report::{equal, equal_at, holds};
use calls::{Call, PAGE, TEMPORARY};
use gadulnos::raw::{
    Bitmap, Finding, Frames, Kernel, Line, Marked, Parts, TallyNumbers, Told, NONE,
};
use std::collections::{BTreeMap, BTreeSet};
use std::fmt::{self, Display, Formatter};
use trial::state::{bit, page_of};

const PRESENT: u64 = 1;

/// The bits of an error code by which a fault is a copy: present and write, and not reserved.
const COPY: (u64, u64) = (0b1011, 0b0011);

/// A region of up to so many pages is given back page by page too.
const FEW: u64 = 4096;

/// From so many pages on a region is a large one.
const MANY: u64 = 1 << 18;

/// Things worth seeing: what a run of random calls must come upon, or it shows little.
#[derive(Clone, Copy, Debug, PartialEq, Eq, PartialOrd, Ord)]
pub enum Event {
    /// What deallocate_frame found.
    Frame(Finding),
    /// A vfree or munmap that found frames so, and one that found some of each kind.
    Release(Finding),
    AllThree,
    /// It passed over a page that is not mapped.
    PassedOver,
    /// Two pages of the region had one frame, which the one freed and the other found free.
    Twice,
    /// A page was mapped before the call, and its entry was gone when its turn came.
    Gone,
    /// A region of 2^18 pages or more in which frames were found.
    Large,
    /// What a met copy found of the page's old frame, or that its remapping unmapped no page.
    Copy(Finding),
    CopyNone,
    /// A met copy before which the temporary page was mapped.
    Temporary,
    /// A copy that gave the old frame back and was then refused, which tells of none.
    Late,
    /// A demand page.
    Demand,
}

impl Event {
    /// All of them.
    pub fn all() -> Vec<Event> {
        let kinds = Finding::ALL.into_iter();
        let of_kinds = kinds.flat_map(|f| [Event::Frame(f), Event::Release(f), Event::Copy(f)]);
        let others = [
            Event::AllThree,
            Event::PassedOver,
            Event::Twice,
            Event::Gone,
            Event::Large,
            Event::CopyNone,
            Event::Temporary,
            Event::Late,
            Event::Demand,
        ];
        of_kinds.chain(others).collect()
    }
}

impl Display for Event {
    fn fmt(&self, f: &mut Formatter) -> fmt::Result {
        match self {
            Event::Frame(finding) => write!(f, "a frame {finding}"),
            Event::Release(finding) => write!(f, "a region's frame {finding}"),
            Event::AllThree => f.write_str("a region's frames of each kind"),
            Event::PassedOver => f.write_str("a page passed over"),
            Event::Twice => f.write_str("a frame of two pages"),
            Event::Gone => f.write_str("an entry gone before its turn"),
            Event::Large => f.write_str("frames in a region of 2^18 pages or more"),
            Event::Copy(finding) => write!(f, "a copied page's frame {finding}"),
            Event::CopyNone => f.write_str("a copy that unmaps no page"),
            Event::Temporary => f.write_str("a copy, the temporary page mapped before"),
            Event::Late => f.write_str("a copy refused behind the free"),
            Event::Demand => f.write_str("a demand page"),
        }
    }
}

/// Whether a call may tell of frames.
pub fn gives_back(call: &Call) -> bool {
    matches!(
        call,
        Call::Vfree { .. }
            | Call::Munmap { .. }
            | Call::Fault { .. }
            | Call::DeallocateFrame { .. }
    )
}

/// Whether a fault is a copy, if the page is marked.
pub fn is_copy(code: u64) -> bool {
    code & COPY.0 == COPY.1
}

/// What can be counted on a board.
#[derive(Clone, Copy, Debug, PartialEq, Eq)]
pub struct Reading {
    /// The marks of lent frames, and the counter.
    pub marked: u64,
    pub counter: u64,
    /// The lent words that have PRESENT, and those of them that name a frame off the board.
    pub present: u64,
    pub off_board: u64,
}

impl Reading {
    pub fn of(words: &[u64], frames: Frames, bitmap: &Bitmap) -> Reading {
        let Frames { start_frame, total, allocated, .. } = frames;
        let entries = words[..total as usize * 512].iter().filter(|word| **word & PRESENT != 0);
        let is_off = |word: &&u64| frame_of(**word).wrapping_sub(start_frame) >= total;
        Reading {
            marked: (0..total as usize).filter(|i| bit(bitmap, *i)).count() as u64,
            counter: allocated,
            present: entries.clone().count() as u64,
            off_board: entries.filter(is_off).count() as u64,
        }
    }

    /// That a release which found this led from one reading to the other: each page that was unmapped is an entry
    /// less, each frame that was freed a mark less.
    pub fn releases(&self, after: &Reading, tally: TallyNumbers) -> Result<(), String> {
        let [freed, already_free, not_here] = tally;
        let wanted = Reading {
            marked: self.marked.wrapping_sub(freed),
            counter: self.counter.wrapping_sub(freed),
            present: self.present.wrapping_sub(freed + already_free + not_here),
            off_board: self.off_board.wrapping_sub(not_here),
        };
        equal_at(("marks and entries", self, tally), *after, wanted)
    }
}

/// That a call told what it found, and of others nothing. What was met with is handed back.
pub fn check(before: &Parts, port: &Port, call: &Call, told: Told) -> Result<Vec<Event>, String> {
    let number = told.line.number;
    if number != 0 {
        equal(told, Told::refused(number))?;
    }
    match *call {
        Call::Fault { addr, code } if is_copy(code) && [0, 11, 18].contains(&number) => {
            copied(before, port, page_of(addr), code & 4 != 0, told)
        }
        _ if number != 0 => Ok(Vec::new()),
        Call::DeallocateFrame { frame } => deallocated(before, port, frame, told),
        Call::Vfree { addr } => {
            let list = Kernel::unpack(&before.kernel).ok_or("no list")?;
            let mut slots = list.slots[..list.count as usize].iter();
            let region = slots.find(|slot| slot.used && slot.start == addr).ok_or("no region")?;
            released(before, port, addr, region.size / PAGE, told)
        }
        Call::Munmap { addr, size } => {
            released(before, port, addr, (size + (PAGE - 1)) / PAGE, told)
        }
        Call::Fault { .. } => equal(told, Told::met(0)).map(|()| vec![Event::Demand]),
        _ => equal(told.tally, NONE).map(|()| Vec::new()),
    }
}

/// The value by the bitmap before and the range; the bitmap after, and the counter.
fn deallocated(before: &Parts, port: &Port, frame: u64, told: Told) -> Result<Vec<Event>, String> {
    let mut frames = before.frames();
    let mut bitmap = gadulnos::raw::unpack_bitmap(&before.bits);
    let index = frame.wrapping_sub(frames.start_frame);
    let finding = match index < frames.total {
        false => Finding::NotHere,
        true if !bit(&bitmap, index as usize) => Finding::AlreadyFree,
        true => Finding::Freed,
    };
    equal(told, Told::met(finding as u64))?;
    if finding == Finding::Freed {
        bitmap[index as usize / 64] &= !(1 << (index % 64));
        frames.allocated -= 1;
    }
    equal(gadulnos::raw::unpack_bitmap(&port.bits), bitmap)?;
    equal(port.frames(), frames)?;
    Ok(vec![Event::Frame(finding)])
}

/// A release of so many pages: marks and entries counted, the words that were cleared, and page by page.
fn released(
    before: &Parts,
    port: &Port,
    start: u64,
    pages: u64,
    told: Told,
) -> Result<Vec<Event>, String> {
    let read = |words: &[u64], frames, bits| {
        Reading::of(words, frames, &gadulnos::raw::unpack_bitmap(bits))
    };
    let old = read(&before.words, before.frames(), &before.bits);
    old.releases(&read(&port.words, port.frames(), &port.bits), told.tally)?;
    let mut events = cleared(before, port)?;
    if pages <= FEW {
        events.extend(page_by_page(before, port, start, pages, told.tally)?);
    }
    let kinds = Finding::ALL.into_iter().zip(told.tally);
    events.extend(kinds.filter(|(_, count)| *count > 0).map(|(f, _)| Event::Release(f)));
    let sum = told.sum();
    events.extend(told.tally.iter().all(|count| *count > 0).then_some(Event::AllThree));
    events.extend((sum < pages).then_some(Event::PassedOver));
    events.extend((sum > 0 && pages >= MANY).then_some(Event::Large));
    Ok(events)
}

/// Every word that changed was an entry and is 0; the marks that are gone are those of the frames that these
/// entries named.
fn cleared(before: &Parts, port: &Port) -> Result<Vec<Event>, String> {
    let frames = before.frames();
    let mut named: BTreeMap<u64, u64> = BTreeMap::new();
    for (at, (old, new)) in before.words.iter().zip(port.words.iter()).enumerate() {
        if old != new {
            let is_entry = old & PRESENT != 0 && *new == 0;
            holds(is_entry, &format!("an entry to be cleared at {at}, not {old:x} to {new:x}"))?;
            *named.entry(frame_of(*old)).or_default() += 1;
        }
    }
    let mut bitmap = gadulnos::raw::unpack_bitmap(&before.bits);
    let mut twice = false;
    for (frame, times) in named {
        let index = frame.wrapping_sub(frames.start_frame);
        if index < frames.total && bit(&bitmap, index as usize) {
            bitmap[index as usize / 64] &= !(1 << (index % 64));
            twice |= times > 1;
        }
    }
    equal(gadulnos::raw::unpack_bitmap(&port.bits), bitmap)?;
    Ok(twice.then_some(Event::Twice).into_iter().collect())
}

/// 'For each page': unmap_page, and of one that it finds deallocate_frame. These come to the same tally and leave
/// the same words and marks.
fn page_by_page(
    before: &Parts,
    port: &Port,
    start: u64,
    pages: u64,
    tally: TallyNumbers,
) -> Result<Option<Event>, String> {
    let tables = Tables { frames: before.frames(), root: before.root };
    let mut board = before.clone();
    let (mut counted, mut gone) = (NONE, None);
    for i in 0..pages {
        let virt = start + i * PAGE;
        let line = board.unmap_page(virt);
        match line.number {
            0 => count(&mut counted, board.deallocate_frame(line.value))?,
            14 | 19 if tables.way(&before.words, virt).1 => gone = Some(Event::Gone),
            14 | 19 => {}
            _ => return Err(format!("unmap_page at {virt:x}: {line:x?}")),
        }
    }
    equal_at("page by page", tally, counted)?;
    same(&board, port)?;
    Ok(gone)
}

/// Counts what a deallocate_frame found.
fn count(tally: &mut TallyNumbers, line: Line) -> Result<(), String> {
    let finding = Finding::of(line.value).filter(|_| line.number == 0);
    tally[finding.ok_or(format!("deallocate_frame: {line:x?}"))? as usize] += 1;
    Ok(())
}

/// That words and frames are the same.
fn same(board: &Parts, port: &Port) -> Result<(), String> {
    holds(board.words[..] == port.words[..], "the words that the steps leave")?;
    holds(board.bits[..] == port.bits[..], "the marks that the steps leave")?;
    equal(port.frames(), board.frames())
}

/// A copy, step by step.
fn copied(
    before: &Parts,
    port: &Port,
    page: u64,
    user: bool,
    told: Told,
) -> Result<Vec<Event>, String> {
    let mut board = before.clone();
    let mut tally = NONE;
    let number = copy(&mut board, page, user, &mut tally)?;
    same(&board, port)?;
    holds(port.marked[..] == board.marked[..], "the marked pages that the steps leave")?;
    equal(told.line.number, number)?;
    if number != 0 {
        return Ok((tally != NONE).then_some(Event::Late).into_iter().collect());
    }
    equal_at("step by step", told, Told::found(tally))?;
    let kind = Finding::ALL.into_iter().zip(tally).find(|(_, count)| *count > 0);
    let mut events = vec![kind.map_or(Event::CopyNone, |(finding, _)| Event::Copy(finding))];
    events.extend((before.translate(TEMPORARY).number == 0).then_some(Event::Temporary));
    Ok(events)
}

/// The steps of a copy, by calls of their own: its number, and what the one frame was found to be that the
/// remapping gave back. What was unmapped of the temporary page is not counted.
fn copy(board: &mut Parts, page: u64, user: bool, tally: &mut TallyNumbers) -> Result<u64, String> {
    let marked = Marked::unpack(&board.marked).ok_or("no list")?;
    let pages: BTreeSet<u64> = marked.pages[..marked.count as usize].iter().copied().collect();
    holds(pages.contains(&page), "a marked page")?;
    let new = board.allocate_frame();
    if new.number != 0 {
        return Ok(new.number);
    }
    if board.translate(TEMPORARY).number == 0 {
        board.unmap_page(TEMPORARY);
    }
    if board.map_page(TEMPORARY, new.value * PAGE, true, false).number != 0 {
        return Ok(18);
    }
    let source = lent(board, board.translate(page));
    if let (Some(from), Some(to)) = (source, lent(board, Line::met(new.value * PAGE))) {
        board.words.copy_within(from..from + 512, to);
    }
    board.unmap_page(TEMPORARY);
    if source.is_none() {
        return Ok(18);
    }
    let old = board.unmap_page(page);
    if old.number == 0 {
        count(tally, board.deallocate_frame(old.value))?;
    }
    if board.map_page(page, new.value * PAGE, true, user).number != 0 {
        return Ok(18);
    }
    Ok(board.unmark_cow(page).number)
}

/// The first word of the lent frame that holds a physical address.
fn lent(board: &Parts, phys: Line) -> Option<usize> {
    let Frames { start_frame, total, .. } = board.frames();
    let index = (phys.value / PAGE).wrapping_sub(start_frame);
    (phys.number == 0 && index < total).then_some(index as usize * 512)
}
