//! A paper as it is drawn, call by call, each tried on the board that the others left.

use super::wish::{Wish, SLOTS};
use crate::seats::theorem::{self, Outside};
use crate::seats::Live;
use crate::words::counted;
use crate::{Console, Progress, Trouble};
use calls::{Call, Random};
use gadulnos::raw::Told;
use gadulnos::{Board, KernelRegion, Refusal};
use std::collections::BTreeMap;

/// Calls that belong together, with a word on what they are for.
#[derive(Debug)]
pub struct Part {
    /// That word; empty if there is none.
    pub about: &'static str,
    /// The calls.
    pub calls: Vec<Call>,
}

/// A paper as drawn, and what came of it.
#[derive(Debug, Default)]
pub struct Drawn {
    /// The calls.
    pub parts: Vec<Part>,
    /// How many calls were refused with each number.
    pub refused: BTreeMap<u64, u64>,
    /// How many vmallocs cut a larger region while the list held 256.
    pub cuts: u64,
    /// How many faults were met.
    pub faults: u64,
    /// How many regions are live at the end.
    pub live: usize,
}

/// What the next call is for.
#[derive(Clone, Copy, Debug, PartialEq, Eq)]
pub enum Aim {
    /// A region more in the vmalloc list, until that is full.
    FillKernel,
    /// A region of it released, so that there is a hole.
    Hole,
    /// A smaller one in its place.
    Cut,
    /// A region more in the mmap list, until that is full.
    FillUser,
    /// One too many.
    TooMany,
    /// Anything that is met.
    Any,
    /// Anything that is refused.
    Refused,
}

impl Aim {
    /// The words over a part of the paper, where calls for this begin.
    fn about(self) -> Option<&'static str> {
        match self {
            Aim::FillKernel => Some("Regions until the vmalloc list holds 256."),
            Aim::Hole => {
                Some("Holes, and a smaller region in each: there is no slot for the rest of it.")
            }
            Aim::FillUser => Some("Regions until the mmap list holds 256, and one too many."),
            Aim::Any => Some("And now any calls."),
            Aim::Cut | Aim::TooMany | Aim::Refused => None,
        }
    }
}

/// A paper in the midst of being drawn.
pub struct Draw<'a> {
    /// What is wished of it.
    pub wish: &'a Wish,
    /// What decides it.
    pub random: Random,
    /// The board behind the calls so far.
    pub board: Board,
    /// The board some calls ago, and these calls: so a call that was tried is undone.
    base: Board,
    since: Vec<Call>,
    /// The calls so far.
    pub drawn: Drawn,
    /// Starts of regions that were released.
    pub released: Vec<u64>,
    /// Whether a hole waits for a smaller region, and whether an mmap was refused with 20 already.
    has_hole: bool,
    was_full: bool,
}

/// How often a call is drawn for an aim before another way is taken.
const TRIES: usize = 60;

/// How many frames at least are free or hold pages of regions, if the board is not too small for that; and how many
/// where hardly a call can be found.
const ROOM: u64 = 6;
const LEAST_ROOM: u64 = 2;

/// How many calls are made again at most to undo one.
const MOST_SINCE: usize = 64;

impl<'a> Draw<'a> {
    /// A fresh board.
    pub fn start(wish: &'a Wish) -> Result<Draw<'a>, Trouble> {
        let board = crate::board(&wish.board)?;
        Ok(Draw {
            wish,
            random: Random::new(wish.seed),
            base: board.clone(),
            board,
            since: Vec::new(),
            drawn: Drawn::default(),
            released: Vec::new(),
            has_hole: false,
            was_full: false,
        })
    }

    /// Draws all calls.
    pub fn paper(mut self, console: &mut Console) -> Result<Drawn, Trouble> {
        let refused = self.schedule();
        let mut met_left = refused.iter().filter(|refused| !**refused).count() as u64;
        let mut progress = Progress::new(console, "calls", self.wish.calls);
        for (done, refused) in (1..).zip(refused) {
            let aim = if refused { Aim::Refused } else { self.aim() };
            let call = self.next(aim, met_left);
            progress.tick(console, done);
            met_left -= u64::from(!refused);
            if call.is_none() {
                progress.end(console);
                return Err(self.stuck(done));
            }
        }
        progress.end(console);
        self.drawn.live = Live::on(&self.board).len();
        Ok(self.drawn)
    }

    /// Which calls are to be refused: about a quarter, if that is wished and calls are left over.
    fn schedule(&mut self) -> Vec<bool> {
        let Wish { calls, refusals, .. } = *self.wish;
        let plan = self.wish.fills() + 2 * self.wish.most_cuts().saturating_sub(1);
        let quarter = if refusals { (calls + 2) / 4 } else { 0 };
        let count = quarter.min(calls.saturating_sub(plan));
        let mut refused: Vec<bool> = (0..calls).map(|at| at < count).collect();
        for last in (1..refused.len()).rev() {
            refused.swap(last, self.random.below(last as u64 + 1) as usize);
        }
        refused
    }

    /// What a call that is not to be refused at random is for.
    fn aim(&self) -> Aim {
        let Wish { cuts, full, .. } = *self.wish;
        let kernel = self.board.kernel_regions().len() as u64;
        let user = self.board.user_regions().len() as u64;
        match () {
            _ if cuts && self.has_hole => Aim::Cut,
            _ if cuts && self.drawn.cuts == 0 && kernel < SLOTS => Aim::FillKernel,
            _ if self.drawn.cuts < self.wish.most_cuts() => Aim::Hole,
            _ if full && !self.was_full && user < SLOTS => Aim::FillUser,
            _ if full && !self.was_full => Aim::TooMany,
            _ => Aim::Any,
        }
    }

    /// Draws a call for an aim and makes it; nothing if none can be found.
    fn next(&mut self, aim: Aim, met_left: u64) -> Option<Call> {
        for _ in 0..TRIES {
            let call = self.draw(aim, met_left)?;
            if self.attempt(aim, call, ROOM) {
                return Some(call);
            }
        }
        let ways = self.last_ways(aim);
        let find = |room| ways.iter().copied().find(|call| self.attempt(aim, *call, room));
        [LEAST_ROOM, 0].into_iter().find_map(find)
    }

    fn draw(&mut self, aim: Aim, met_left: u64) -> Option<Call> {
        match aim {
            Aim::FillKernel => Some(self.filling_vmalloc()),
            Aim::Hole => self.hole(),
            Aim::Cut => Some(self.smaller_vmalloc()),
            Aim::FillUser | Aim::TooMany => Some(self.filling_mmap()),
            Aim::Any => Some(self.any(met_left)),
            Aim::Refused => Some(self.refused()),
        }
    }

    /// Makes a call, if it does what it is for, leaves room and may stand in the paper; else the board is as before.
    fn attempt(&mut self, aim: Aim, call: Call, room: u64) -> bool {
        let before = self.board.kernel_regions();
        let told = self.board.play(&call);
        let (number, met) = (told.line.number, told.line.number == 0);
        let cuts = met && is_cut(&before, &call, &told, &self.board);
        let fits = match aim {
            Aim::Refused => !met,
            Aim::TooMany => number == Refusal::ListFull.number(),
            Aim::Cut => cuts,
            _ => met && self.leaves(room),
        };
        let allowed = match Outside::of(&call, &told, self.board.levels()) {
            None => true,
            Some(Outside::Kind) => met && self.wish.faults,
            Some(_) => false,
        };
        if fits && allowed {
            self.drawn.cuts += u64::from(cuts);
            self.note(aim, call, number);
        } else if theorem::may_change(&call, &told) {
            self.undo();
        }
        fits && allowed
    }

    /// Whether so many frames are left for regions to come: tables and pages of faults stay for ever.
    fn leaves(&self, room: u64) -> bool {
        let live: u64 = Live::on(&self.board).iter().map(Live::pages).sum();
        // Root and tables of one page are as many frames as there are levels.
        let most = self.board.total_frames().saturating_sub(self.board.levels().get());
        self.board.free_frames() + live >= room.min(most)
    }

    /// Takes the last call back.
    fn undo(&mut self) {
        self.board.clone_from(&self.base);
        for call in &self.since {
            self.board.play(call);
        }
    }

    /// Notes a call that was made, and its number.
    fn note(&mut self, aim: Aim, call: Call, number: u64) {
        self.since.push(call);
        if self.since.len() >= MOST_SINCE {
            self.base.clone_from(&self.board);
            self.since.clear();
        }
        match call {
            _ if number != 0 => *self.drawn.refused.entry(number).or_default() += 1,
            Call::Fault { .. } => self.drawn.faults += 1,
            Call::Vfree { addr } | Call::Munmap { addr, .. } => self.released.push(addr),
            _ => {}
        }
        self.has_hole = (self.has_hole || aim == Aim::Hole) && aim != Aim::Cut;
        self.was_full |= aim == Aim::TooMany;
        self.part(aim).calls.push(call);
    }

    /// The part that a call belongs to. A paper for which no list is filled has one, without words.
    fn part(&mut self, aim: Aim) -> &mut Part {
        let parts = &mut self.drawn.parts;
        let about = aim.about().filter(|_| self.wish.fills() > 0);
        let about = about.filter(|about| parts.last().map_or(true, |last| last.about != *about));
        if about.is_some() || parts.is_empty() {
            parts.push(Part { about: about.unwrap_or_default(), calls: Vec::new() });
        }
        let last = parts.len() - 1;
        &mut parts[last]
    }

    /// That no call can be found.
    fn stuck(&self, at: u64) -> Trouble {
        let frames = counted(self.board.total_frames(), "frame");
        Trouble::Said(format!(
            "no call {at} can be found that is met on this board of {frames}: --frames gives it more"
        ))
    }
}

/// Whether a met call is a vmalloc that cut a larger region while the list held 256.
fn is_cut(before: &[KernelRegion], call: &Call, told: &Told, after: &Board) -> bool {
    let size_of = |regions: &[KernelRegion]| {
        let region = regions.iter().find(|region| region.start.get() == told.line.value);
        region.map(|region| region.size)
    };
    let is_full = before.len() as u64 == SLOTS;
    let is_vmalloc = matches!(call, Call::Vmalloc { .. });
    is_full && is_vmalloc && size_of(before) > size_of(&after.kernel_regions())
}
