//! What is wished of a new paper.

use crate::options::{usage, Options};
use crate::Trouble;
use calls::text::Setting;
use std::fmt::{self, Display, Formatter};

/// What is wished of a new paper.
#[derive(Clone, Debug)]
pub struct Wish {
    /// What decides it.
    pub seed: u64,
    /// How many calls.
    pub calls: u64,
    /// mmaps name no address.
    pub plain: bool,
    /// About a quarter of the calls are refused.
    pub refusals: bool,
    /// vmallocs cut larger regions.
    pub cuts: bool,
    /// An mmap finds its list full.
    pub full: bool,
    /// There are page faults.
    pub faults: bool,
    /// The board.
    pub board: Setting,
}

/// How many calls a paper has if nothing is said, also where a list has to be filled.
const CALLS: u64 = 12;
const CALLS_THAT_FILL: u64 = 24;

/// The most calls of a paper.
const MOST_CALLS: u64 = 10_000;

/// The entries of a list.
pub const SLOTS: u64 = 256;

/// The calls that lead to a cut: regions until the list is full, a hole, and a smaller region in its place. And those
/// that lead to a full mmap list and are refused there.
const TO_CUT: u64 = SLOTS - 1 + 2;
const TO_FULL: u64 = SLOTS + 1;

/// The frames of a board on which one list is filled, if none are named.
const FRAMES_TO_FILL: u64 = 512;

impl Wish {
    /// What a command line wishes for.
    pub fn read(options: &Options) -> Result<Wish, Trouble> {
        let (calls, plain, refusals) = match options.value("difficulty") {
            None => (None, false, false),
            Some("easy") => (Some(6), true, false),
            Some("middle") => (Some(12), false, false),
            Some("hard") => (Some(24), false, true),
            Some(other) => {
                let why = format!("--difficulty is easy, middle or hard, and `{other}` is none");
                return Err(usage(&why));
            }
        };
        let mut wish = Wish {
            seed: options.number("seed")?.unwrap_or(1),
            calls: 0,
            plain: plain || options.has("plain"),
            refusals: refusals || options.has("refusals"),
            cuts: options.has("cuts"),
            full: options.has("full"),
            faults: options.has("faults"),
            board: Setting {
                frames: options.number("frames")?,
                from: options.number("from")?,
                levels: options.number("levels")?,
            },
        };
        let named = options.number("calls")?;
        wish.calls = named.unwrap_or_else(|| wish.usual(calls));
        wish.board.frames = wish.board.frames.or_else(|| wish.frames());
        wish.check()
    }

    /// How many calls there are if none are named, but perhaps by a difficulty.
    fn usual(&self, by_difficulty: Option<u64>) -> u64 {
        let more = if self.fills() == 0 { CALLS } else { CALLS_THAT_FILL };
        self.fills() + by_difficulty.unwrap_or(more)
    }

    /// How many calls at least go to filling lists.
    pub fn fills(&self) -> u64 {
        let cuts = if self.cuts { TO_CUT } else { 0 };
        let full = if self.full { TO_FULL } else { 0 };
        cuts + full
    }

    /// How many frames the board has if none are named; nothing where document 01's are enough.
    fn frames(&self) -> Option<u64> {
        let lists = u64::from(self.cuts) + u64::from(self.full);
        (lists > 0).then_some(lists * FRAMES_TO_FILL)
    }

    /// How many cuts there are.
    pub fn most_cuts(&self) -> u64 {
        let more = self.calls.saturating_sub(self.fills());
        if self.cuts {
            1 + (more / 8).min(7)
        } else {
            0
        }
    }

    /// Refuses numbers of calls that cannot be had.
    fn check(self) -> Result<Wish, Trouble> {
        let (calls, least) = (self.calls, self.fills());
        if calls > MOST_CALLS {
            return Err(usage(&format!("--calls needs a number up to {MOST_CALLS}")));
        }
        if calls < least {
            let why = format!("a list of 256 regions is filled: --calls needs {least} or more");
            return Err(usage(&why));
        }
        Ok(self)
    }
}

/// The command line that makes the paper again.
impl Display for Wish {
    fn fmt(&self, f: &mut Formatter) -> fmt::Result {
        let Wish { seed, calls, .. } = self;
        write!(f, "paper new --seed {seed} --calls {calls}")?;
        let choices = [
            (self.plain, " --plain"),
            (self.refusals, " --refusals"),
            (self.cuts, " --cuts"),
            (self.full, " --full"),
            (self.faults, " --faults"),
        ];
        for (_, choice) in choices.iter().filter(|(chosen, _)| *chosen) {
            f.write_str(choice)?;
        }
        let Setting { frames, from, levels } = self.board;
        frames.map_or(Ok(()), |frames| write!(f, " --frames {frames}"))?;
        from.map_or(Ok(()), |from| write!(f, " --from {from:#x}"))?;
        levels.map_or(Ok(()), |levels| write!(f, " --levels {levels}"))
    }
}
