//! The calls of a paper, one by one, with what each told.

use crate::key::KeyLine;
use crate::words::counted;
use crate::{explain, Played, Trouble};
use calls::text::{self, Paper};
use calls::Call;
use gadulnos::raw::Told;
use gadulnos::{Board, Tally, VirtAddr, Walk};

/// A paper being played call by call.
pub struct Steps<'a> {
    played: Played<'a>,
    made: usize,
    of: usize,
}

/// Where a paper stands: behind its start or behind a call.
pub struct Step {
    /// The call's number, from 1; 0 behind the start.
    pub number: usize,
    /// How many calls the paper has.
    pub of: usize,
    /// The call and what it told.
    pub made: Option<Made>,
}

/// A call that was made.
pub struct Made {
    /// The call.
    pub call: Call,
    /// What it told.
    pub told: Told,
    /// The entries that a translation read.
    pub walk: Option<Walk>,
}

impl<'a> Steps<'a> {
    /// The start.
    pub fn start(paper: &'a Paper) -> Result<(Steps<'a>, Step), Trouble> {
        let of = paper.calls.len();
        let steps = Steps { played: Played::start(paper)?, made: 0, of };
        Ok((steps, Step { number: 0, of, made: None }))
    }

    /// The board as it stands.
    pub fn board(&self) -> &Board {
        &self.played.board
    }
}

impl Iterator for Steps<'_> {
    type Item = Step;

    /// Makes the next call.
    fn next(&mut self) -> Option<Step> {
        let (call, told) = self.played.step()?;
        self.made += 1;
        let walk = match call {
            Call::Translate { addr } => Some(self.played.board.walk(VirtAddr::new(addr))),
            _ => None,
        };
        Some(Step { number: self.made, of: self.of, made: Some(Made { call, told, walk }) })
    }
}

impl Step {
    /// As in `call 2 of 4`.
    pub fn place(&self) -> String {
        match self.number {
            0 => format!("the fresh board, {} to come", counted(self.of as u64, "call")),
            number => format!("call {number} of {}", self.of),
        }
    }

    /// .. with the call.
    pub fn heading(&self) -> String {
        match &self.made {
            None => self.place(),
            Some(made) => format!("{}: {}", self.place(), made.text()),
        }
    }
}

impl Made {
    /// The call as a paper has it.
    pub fn text(&self) -> String {
        text::call(&self.call)
    }

    /// The key's line.
    pub fn line(&self) -> String {
        KeyLine::of(&self.call, &self.told).to_string()
    }

    /// What the call told, in words.
    pub fn words(&self) -> String {
        explain::told(&self.call, &self.told)
    }

    /// Whether it was refused.
    pub fn is_refused(&self) -> bool {
        self.told.line.number != 0
    }

    /// What a met call that gives frames back found of them.
    pub fn found(&self) -> Option<Tally> {
        let gives =
            matches!(self.call, Call::Vfree { .. } | Call::Munmap { .. } | Call::Fault { .. });
        (gives && !self.is_refused()).then_some(self.told.tally.into())
    }
}
