//! Papers played on boards.

use crate::Trouble;
use calls::text::{Paper, Setting};
use calls::Call;
use gadulnos::raw::Told;
use gadulnos::{Board, Levels, PhysAddr, Refusal};

/// Document 01's board.
const FRAMES: u64 = 16;
const FROM: u64 = 0x10_0000;

/// The most frames that a board has: its record has a bit for each.
const MOST_FRAMES: u64 = 8192;

/// A fresh board as a setting has it.
pub fn board(setting: &Setting) -> Result<Board, Trouble> {
    let levels = setting.levels.unwrap_or(Levels::Four.get());
    let levels = Levels::of(levels).ok_or_else(|| {
        Trouble::Said(format!("a board has 4 or 5 levels of page tables, and not {levels}"))
    })?;
    let from = setting.from.unwrap_or(FROM);
    let frames = setting.frames.unwrap_or(FRAMES);
    if frames > MOST_FRAMES {
        let why = format!("a board has {MOST_FRAMES} frames at most, and not {frames}");
        return Err(Trouble::Said(why));
    }
    let bytes = frames.checked_mul(calls::PAGE);
    let to = bytes.and_then(|bytes| from.checked_add(bytes));
    let to = to.ok_or(Trouble::Start(Refusal::BrokenRecord))?;
    Board::start(PhysAddr::new(from), PhysAddr::new(to), levels).map_err(Trouble::Start)
}

/// A paper in the midst of being played.
pub struct Played<'a> {
    /// The board as the calls made so far left it.
    pub board: Board,
    calls: std::slice::Iter<'a, Call>,
}

impl<'a> Played<'a> {
    /// A fresh board, and the calls to come.
    pub fn start(paper: &'a Paper) -> Result<Played<'a>, Trouble> {
        Ok(Played { board: board(&paper.board)?, calls: paper.calls.iter() })
    }

    /// Makes the next call; nothing if there is none.
    pub fn step(&mut self) -> Option<(Call, Told)> {
        let call = *self.calls.next()?;
        Some((call, self.board.play(&call)))
    }

    /// Makes all calls that are left: the board behind them.
    pub fn end(mut self) -> Board {
        while self.step().is_some() {}
        self.board
    }
}
