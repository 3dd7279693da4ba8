//! A call that may give frames back. The Rust says nothing of what it found, so that what the port tells is held
//! against the Rust's own marks and words before and after the call and the pages that its tables had mapped, and
//! against the model.

use crate::found::{self, Reading};
use crate::model::Model;
use crate::play::{count, Seen};
use crate::port::{self, Port};
use crate::protected::{frame_of, Tables};
use crate::rare::leaf;
use crate::report::{equal, equal_at, holds};
use calls::{Call, PAGE, TEMPORARY};
use gadulnos::raw::{Bitmap, Finding, Frames, Parts, Told, NONE};
use rinux::oracle::Board;
use std::collections::BTreeSet;
use trial::state::{bit, page_of, State};

/// What is kept of both before the call.
pub struct Before {
    /// The port's parts, without the words if the call names no pages.
    parts: Parts,
    bitmap: Bitmap,
    /// Of a call that names pages, what can be counted on the Rust's board, and what its tables have mapped of them.
    pages: Option<(Reading, Mapped)>,
}

/// Pages that are mapped, by the words of their last entries.
struct Mapped {
    leaves: BTreeSet<usize>,
    /// The frame that the last of them names.
    frame: Option<u64>,
    /// Whether such a word is an entry on the way to one of them too.
    on_the_way: bool,
    /// Whether a large page lies over the last of them, or an entry of it is the last on the way to the temporary
    /// page: a copy may then find another entry than stood before, or none.
    disturbed: bool,
}

fn frames(state: &State) -> Frames {
    let State { start_frame, total, allocated, levels, .. } = *state;
    Frames { start_frame, total, allocated, levels }
}

fn reading(state: &State) -> Reading {
    Reading::of(state.words, frames(state), &state.bitmap)
}

impl Mapped {
    fn of(state: &State, start: u64, pages: u64) -> Mapped {
        let tables = Tables { frames: frames(state), root: state.root };
        let (mut leaves, mut ways, mut frame) = (BTreeSet::new(), BTreeSet::new(), None);
        let (temporary, _) = tables.way(state.words, TEMPORARY);
        let mut disturbed = false;
        for virt in (0..pages).map(|i| start.wrapping_add(i * PAGE)) {
            let (way, found) = tables.way(state.words, virt);
            let (above, last) = way.split_at(way.len() - usize::from(found));
            ways.extend(above.iter().copied());
            leaves.extend(last.iter().copied());
            frame = last.first().map_or(frame, |at| Some(frame_of(state.words[*at])));
            let is_large = leaf(state, virt).map_or(false, |(_, level)| level == 2);
            disturbed = is_large || temporary.last().map_or(false, |at| way.contains(at));
        }
        let on_the_way = leaves.iter().any(|at| ways.contains(at));
        Mapped { leaves, frame, on_the_way, disturbed }
    }
}

/// The pages that a call names, of a listed region or a marked one to copy: where they start, and how many.
fn named(state: &State, call: &Call) -> Option<(u64, u64)> {
    match *call {
        Call::Vfree { addr } => {
            let region = state.vmalloc().iter().find(|slot| slot.used && slot.start == addr);
            region.map(|slot| (addr, slot.size / PAGE))
        }
        Call::Munmap { addr, .. } => {
            let region = state.regions.iter().find(|region| region.start == addr);
            region.map(|region| (addr, region.size / PAGE))
        }
        Call::Fault { addr, code } if found::is_copy(code) => {
            state.marked.contains(&page_of(addr)).then_some((page_of(addr), 1))
        }
        _ => None,
    }
}

impl Before {
    pub fn of(board: &Board, port: &Port, call: &Call) -> Option<Before> {
        found::gives_back(call).then(|| {
            let state = board.state();
            let pages = named(&state, call);
            let pages = pages.map(|(at, count)| (reading(&state), Mapped::of(&state, at, count)));
            let parts = match pages {
                Some(_) => port::unguarded(port),
                None => Parts {
                    fields: port.fields.to_vec(),
                    bits: Box::new(*port.bits),
                    ..Parts::lend(0)
                },
            };
            Before { parts, bitmap: state.bitmap, pages }
        })
    }

    /// That the call told what it found, by the Rust's state behind it, the model and direct reading.
    pub fn check(
        &self,
        after: &State,
        port: &Port,
        call: &Call,
        told: Told,
        seen: &mut Seen,
    ) -> Result<(), String> {
        if told.line.number == 0 {
            self.by_the_rust(after, call, told).map_err(|why| format!("the Rust: {why}"))?;
        }
        for event in found::check(&self.parts, port, call, told)? {
            count(seen, &format!("given back: {event}, {}", told.line.number));
        }
        if self.pages.is_none() {
            return equal(told.tally, NONE);
        }
        let mut model = Model::of(&self.parts);
        let wanted = model.play(call);
        match model.gave_up {
            true => {
                count(seen, "given back: too long for the model");
                Ok(())
            }
            false => equal_at("the model", told, wanted),
        }
    }

    /// The marks that are gone, the entries that are gone, and the pages that were mapped before.
    fn by_the_rust(&self, after: &State, call: &Call, told: Told) -> Result<(), String> {
        let start = after.start_frame;
        let marked = |bitmap: &Bitmap, i: &u64| bit(bitmap, *i as usize);
        let gone =
            (0..after.total).filter(|i| marked(&self.bitmap, i) && !marked(&after.bitmap, i));
        let gone: Vec<u64> = gone.map(|i| start + i).collect();
        let [freed, ..] = told.tally;
        match (call, &self.pages) {
            (&Call::DeallocateFrame { frame }, _) => {
                let finding = match (after.lent(frame), &gone[..]) {
                    (None, []) => Finding::NotHere,
                    (Some(_), []) => Finding::AlreadyFree,
                    (Some(_), &[one]) if one == frame => Finding::Freed,
                    _ => return Err(format!("{frame:x} alone to be freed, not {gone:x?}")),
                };
                equal(told, Told::met(finding as u64))
            }
            (Call::Vfree { .. } | Call::Munmap { .. }, Some((reading, mapped))) => {
                equal_at("marks that are gone", freed, gone.len() as u64)?;
                reading.releases(&self::reading(after), told.tally)?;
                let (most, sum) = (mapped.leaves.len() as u64, told.sum());
                let all = sum == most || mapped.on_the_way && sum < most;
                holds(all, &format!("{most} pages that were mapped, not {sum}"))
            }
            // In the domain a copied page is mapped to a lent, marked frame: that is the one mark that goes.
            (Call::Fault { .. }, Some((_, mapped))) if !mapped.on_the_way && !mapped.disturbed => {
                equal(told.tally, [1, 0, 0])?;
                equal_at("marks that are gone", gone, mapped.frame.into_iter().collect())
            }
            (Call::Fault { .. }, Some(_)) => {
                let most = gone.len() as u64 <= freed && told.sum() <= 1;
                holds(most, &format!("one frame at most, and its mark gone: {gone:x?}"))
            }
            _ => Ok(()),
        }
    }
}
