//! What an mprotect may change and must, told from a board before and after it by direct reading, apart from any
//! model (document 02, slip 1).

#![allow(dead_code)] // no program uses all of it

use crate::guard::Against;
use crate::port::{self, Port};
use crate::report::{equal, equal_at, holds};
use calls::PAGE;
use gadulnos::raw::{Frames, Line, Parts};
use std::collections::BTreeSet;

const PRESENT: u64 = 1;
const WRITABLE: u64 = 2;
const HUGE: u64 = 128;

/// A region of up to so many pages is read whole, of a larger one as many pages.
const READ: u64 = 64;

/// A call, and further addresses to look at.
pub struct Asked<'a> {
    pub addr: u64,
    pub size: u64,
    pub prot: i32,
    pub also: &'a [u64],
}

/// Things worth seeing: what a run of random calls must come upon, or it shows little.
#[derive(Clone, Copy, Debug, PartialEq, Eq, PartialOrd, Ord)]
pub enum Event {
    /// A word became writable, or is no longer.
    Set,
    Cleared,
    /// A page of the region that is not found.
    NotFound,
    /// A page found whose frame is not lent, and one below a HUGE entry of the last level but one.
    OffBoard,
    BelowHuge,
    /// A word changed that is an entry on the way to a page too.
    OnTheWay,
    /// Pages that have the same last entry.
    Shared,
    /// A region of 2^18 pages or more, and one whose pages come round: the bits above the top index are ignored.
    Large,
    Round,
    /// PROT_NONE, and a protection below 0, with PROT_WRITE and without.
    NoProtection,
    NegativeWrite,
    NegativeRead,
}

impl Event {
    pub const ALL: [Event; 12] = [
        Event::Set,
        Event::Cleared,
        Event::NotFound,
        Event::OffBoard,
        Event::BelowHuge,
        Event::OnTheWay,
        Event::Shared,
        Event::Large,
        Event::Round,
        Event::NoProtection,
        Event::NegativeWrite,
        Event::NegativeRead,
    ];
}

/// The lent frames and the root, by their numbers.
#[derive(Clone, Copy)]
pub struct Tables {
    pub frames: Frames,
    pub root: u64,
}

impl Tables {
    /// The words that `unmap_page` reads on its way, which does not look at HUGE; all of them, the page's last, if
    /// it finds the page.
    pub fn way(&self, words: &[u64], virt: u64) -> (Vec<usize>, bool) {
        let Frames { start_frame, total, levels, .. } = self.frames;
        let (mut way, mut table) = (Vec::new(), self.root);
        for level in (1..=levels).rev() {
            let frame = table.wrapping_sub(start_frame);
            if frame >= total {
                return (way, false);
            }
            let at = frame as usize * 512 + (virt >> (3 + 9 * level)) as usize % 512;
            way.push(at);
            if words[at] & PRESENT == 0 {
                return (way, false);
            }
            table = frame_of(words[at]);
        }
        (way, true)
    }

    fn translate(&self, words: &[u64], virt: u64) -> Line {
        let Frames { start_frame, total, levels, .. } = self.frames;
        gadulnos::raw::translate(words, start_frame, total, levels, self.root, virt)
    }

    /// Whether user code may read an address, and write it.
    fn may(&self, words: &[u64], virt: u64) -> [Line; 2] {
        let Frames { start_frame, total, levels, .. } = self.frames;
        [false, true].map(|write| {
            gadulnos::raw::user_may(words, start_frame, total, levels, self.root, virt, write)
        })
    }
}

pub fn frame_of(word: u64) -> u64 {
    (word & 0x000F_FFFF_FFFF_F000) / PAGE
}

/// That the call left what it may: nothing changed by a refusal; else, of the list, the prot of the one region, and
/// of the words WRITABLE alone, in present entries, so that it follows PROT_WRITE on the region's pages that are
/// found. What was met with is handed back.
pub fn check(
    before: &Parts,
    port: &Port,
    asked: &Asked,
    line: Line,
) -> Result<BTreeSet<Event>, String> {
    let rest = port.root == before.root
        && port.fields[..] == before.fields[..]
        && port.bits[..] == before.bits[..]
        && port.kernel[..] == before.kernel[..]
        && port.marked[..] == before.marked[..];
    holds(rest, "no part changed that is not lent")?;
    as_munmap(before, asked, line)?;
    if line.number != 0 {
        let same = port.words[..] == before.words[..] && port.user[..] == before.user[..];
        holds(same, "nothing changed by a refusal")?;
        return Ok(BTreeSet::new());
    }
    equal(line, Line::met(0))?;
    list(before, port, asked)?;
    let mut events = words(before, port, asked)?;
    events.extend(protections(asked.prot));
    Ok(events)
}

/// 'As munmap does, in munmap's order of checks': munmap answers the same, or 10 for what it is lent besides.
fn as_munmap(before: &Parts, asked: &Asked, line: Line) -> Result<(), String> {
    let mut trial = port::guarded(before, Against::Behind);
    let munmap = trial.munmap(asked.addr, asked.size).line();
    let same = munmap == line || munmap == Line::refused(10);
    holds(same, &format!("the number that munmap has, {munmap:x?}, not {line:x?}"))
}

/// Of the list nothing has changed but the prot of the region.
fn list(before: &Parts, port: &Port, asked: &Asked) -> Result<(), String> {
    let mut wanted = before.user.clone();
    let count = u64::from_le_bytes(wanted[..8].try_into().expect("eight bytes")) as usize;
    let mut slots = wanted[16..].chunks_mut(24).take(count);
    let slot = slots.find(|slot| slot[..8] == asked.addr.to_le_bytes()).ok_or("no such region")?;
    slot[16..20].copy_from_slice(&asked.prot.to_le_bytes());
    holds(port.user[..] == wanted[..], "the list with another prot, and no other change")
}

/// The words, one by one and page by page.
fn words(before: &Parts, port: &Port, asked: &Asked) -> Result<BTreeSet<Event>, String> {
    let (old, new) = (&before.words[..], &port.words[..]);
    equal(new.len(), old.len())?;
    let changed: BTreeSet<usize> = (0..old.len()).filter(|at| old[*at] != new[*at]).collect();
    let mut events = BTreeSet::new();
    for &at in &changed {
        let (was, is) = (old[at], new[at]);
        let only = was ^ is == WRITABLE && was & PRESENT != 0 && is & WRITABLE == bit(asked.prot);
        holds(only, &format!("WRITABLE alone to follow in word {at}, not {was:x} to {is:x}"))?;
        events.insert(if is & WRITABLE != 0 { Event::Set } else { Event::Cleared });
    }
    let tables = Tables { frames: before.frames(), root: before.root };
    let (levels, pages) = (tables.frames.levels, (asked.size + (PAGE - 1)) / PAGE);
    let mut ends = BTreeSet::new();
    for virt in addresses(asked, pages) {
        let here = |why| format!("at {virt:x}: {why}");
        let may = page(tables, old, new, virt).map_err(here)?;
        if is_inside(virt, asked.addr, pages, levels) {
            let (way, found) = tables.way(old, virt);
            if found {
                follows(&way, new, asked.prot, may).map_err(here)?;
            }
            events.extend(told(tables, old, &changed, &way, found));
            events.extend((found && !ends.insert(way.last().copied())).then_some(Event::Shared));
        }
    }
    events.extend((pages >= 1 << 18).then_some(Event::Large));
    let all = 1 << (9 * levels);
    events.extend((asked.addr / PAGE % all + pages > all).then_some(Event::Round));
    Ok(events)
}

/// That WRITABLE follows the protection in the last entry, and that user code may write if it may read and every
/// entry has WRITABLE.
fn follows(way: &[usize], new: &[u64], prot: i32, may: [Line; 2]) -> Result<(), String> {
    let last = *way.last().ok_or("no entry")?;
    equal_at(last, new[last] & WRITABLE, bit(prot))?;
    let all = way.iter().all(|at| new[*at] & WRITABLE != 0);
    equal_at("may user code write?", may[1].value, u64::from(all && may[0].value == 1))
}

/// What is worth seeing of a page.
fn told(
    tables: Tables,
    old: &[u64],
    changed: &BTreeSet<usize>,
    way: &[usize],
    found: bool,
) -> Vec<Event> {
    let above = if found { &way[..way.len() - 1] } else { way };
    let frame = way.last().map_or(0, |at| frame_of(old[*at]));
    let off_board = frame.wrapping_sub(tables.frames.start_frame) >= tables.frames.total;
    let below_huge = above.last().map_or(false, |at| old[*at] & HUGE != 0);
    let events = [
        (!found, Event::NotFound),
        (found && off_board, Event::OffBoard),
        (found && below_huge, Event::BelowHuge),
        (above.iter().any(|at| changed.contains(at)), Event::OnTheWay),
    ];
    events.into_iter().filter(|(holds, _)| *holds).map(|(_, event)| event).collect()
}

/// Bit 1 of a protection, as WRITABLE.
fn bit(prot: i32) -> u64 {
    u64::from(prot as u32) & WRITABLE
}

fn protections(prot: i32) -> Option<Event> {
    match prot {
        0 => Some(Event::NoProtection),
        _ if prot >= 0 => None,
        _ if bit(prot) != 0 => Some(Event::NegativeWrite),
        _ => Some(Event::NegativeRead),
    }
}

/// Pages of the region, its neighbours, and what else is asked for, each page once.
fn addresses(asked: &Asked, pages: u64) -> Vec<u64> {
    let step = (pages / READ).max(1);
    let inside = (0..pages.min(READ)).map(|i| asked.addr + i * step * PAGE);
    let end = asked.addr + pages * PAGE;
    let around = [asked.addr.wrapping_sub(PAGE), end - PAGE, end];
    let also = asked.also.iter().map(|virt| virt & !(PAGE - 1));
    let all: BTreeSet<u64> = inside.chain(around).chain(also).collect();
    all.into_iter().collect()
}

/// Whether a page has the indices of one of the region's.
fn is_inside(virt: u64, start: u64, pages: u64, levels: u64) -> bool {
    let all = 1 << (9 * levels);
    (virt / PAGE).wrapping_sub(start / PAGE) % all < pages
}

/// Whatever address it is, it translates as before, and user code may read it as before. What user code may.
fn page(tables: Tables, old: &[u64], new: &[u64], virt: u64) -> Result<[Line; 2], String> {
    equal(tables.translate(new, virt + 7), tables.translate(old, virt + 7))?;
    let (may, might) = (tables.may(new, virt), tables.may(old, virt));
    equal(may[0], might[0])?;
    Ok(may)
}

/// The same call again changes nothing; the other protection and then this one again lead back. The board is left
/// as it is.
pub fn again(port: &mut Port, asked: &Asked) -> Result<(), String> {
    let Asked { addr, size, prot, .. } = *asked;
    let (words, user) = (port.words.to_vec(), port.user.to_vec());
    for prots in [&[prot][..], &[prot ^ 2, prot], &[!prot, prot ^ 2, prot]] {
        for &prot in prots {
            equal(port.mprotect(addr, size, prot), Line::met(0))?;
        }
        let same = port.words[..] == words[..] && port.user[..] == user[..];
        holds(same, &format!("the board back after mprotects to {prots:x?}"))?;
    }
    Ok(())
}
