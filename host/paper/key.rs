//! `paper key`: the key's lines.

use crate::options::{Choice, Options, Verb, BOARD, PAPER};
use crate::{explain, source, Console, Played, Source, Status, Trouble};
use calls::text::{self, Paper};
use calls::Call;
use gadulnos::raw::Told;
use std::fmt::{self, Display, Formatter};

/// Prints a key.
pub const KEY: Verb = Verb {
    name: "key",
    words: "[PAPER]",
    most_words: 1,
    about: "prints the key of a paper",
    more: "\
A line for each call: its kind, document 01's number, 0 if it was met, and the value in 16
hexadecimal digits. The last line is `frames` and the number of marked frames. Before it, where a
tape is malformed, stand `tape` and the place, and the status is 2. For a tape it is what `./run`
prints. A text may have calls that document 01's tape has not; their kinds are 7 to 21.",
    choices: &[
        &[Choice {
            name: "explain",
            value: "",
            about: "each line with its call, and why it is so",
        }],
        PAPER,
        BOARD,
    ],
    example: "paper key exam.txt\npaper key exam.tape --explain",
    run,
};

/// A line of a key.
#[derive(Clone, Copy, Debug, PartialEq, Eq)]
pub enum KeyLine {
    /// What a call told.
    Call { kind: u8, number: u64, value: u64 },
    /// Where a malformed tape cannot be read on.
    Tape(u64),
    /// The number of marked frames.
    Frames(u64),
}

impl KeyLine {
    /// The line of a call.
    pub fn of(call: &Call, told: &Told) -> KeyLine {
        KeyLine::Call { kind: call.kind(), number: told.line.number, value: told.line.value }
    }

    /// Its place among a key's lines: the calls, then the tape, then the frames.
    pub fn rank(&self) -> u8 {
        match self {
            KeyLine::Call { .. } => 0,
            KeyLine::Tape(_) => 1,
            KeyLine::Frames(_) => 2,
        }
    }
}

impl Display for KeyLine {
    fn fmt(&self, f: &mut Formatter) -> fmt::Result {
        match self {
            KeyLine::Call { kind, number, value } => write!(f, "{kind} {number} {value:016x}"),
            KeyLine::Tape(offset) => write!(f, "tape {offset}"),
            KeyLine::Frames(count) => write!(f, "frames {count}"),
        }
    }
}

/// The lines of a paper's key, each but the last with its call: the paper is played as they are asked for.
pub struct Key<'a> {
    played: Played<'a>,
    /// The lines behind the calls that are still to come, the last one first.
    ends: Vec<End>,
}

/// What stands behind the calls.
enum End {
    Frames,
    Tape(u64),
}

impl<'a> Key<'a> {
    /// The key of a paper on a fresh board.
    pub fn start(paper: &'a Paper) -> Result<Key<'a>, Trouble> {
        let mut ends = vec![End::Frames];
        if !paper.rest.is_empty() {
            ends.push(End::Tape(source::offset(paper)));
        }
        Ok(Key { played: Played::start(paper)?, ends })
    }
}

impl Iterator for Key<'_> {
    type Item = (KeyLine, Option<(Call, Told)>);

    fn next(&mut self) -> Option<(KeyLine, Option<(Call, Told)>)> {
        if let Some((call, told)) = self.played.step() {
            return Some((KeyLine::of(&call, &told), Some((call, told))));
        }
        let line = match self.ends.pop()? {
            End::Tape(offset) => KeyLine::Tape(offset),
            End::Frames => KeyLine::Frames(self.played.board.allocated_frames()),
        };
        Some((line, None))
    }
}

fn run(options: &Options, console: &mut Console) -> Result<Status, Trouble> {
    let source = Source::read(options.word(0), options, console)?;
    let key = Key::start(&source.paper)?;
    if options.has("explain") {
        explained(&source.paper, key, console)?;
    } else {
        for (line, _) in key {
            writeln!(console.output(), "{line}")?;
        }
    }
    source.status(console)
}

/// The width of a call's longest line, and of the longest text of a call that others are aligned with.
const LINE_WIDTH: usize = 22;
const MOST_TEXT: usize = 46;

/// The key with each call beside its line, and what the line means.
fn explained(paper: &Paper, key: Key, console: &mut Console) -> Result<(), Trouble> {
    let widths = paper.calls.iter().map(|call| text::call(call).chars().count());
    let width = widths.filter(|width| *width <= MOST_TEXT).max().unwrap_or_default();
    let total = key.played.board.total_frames();
    for (line, call) in key {
        let words = match (line, call) {
            (_, Some((call, told))) => {
                format!("{:width$}  {}", text::call(&call), explain::told(&call, &told))
            }
            (KeyLine::Frames(count), None) => format!("{count} of {total} frames are marked"),
            _ => "from this byte on the tape cannot be read".to_string(),
        };
        writeln!(console.output(), "{:LINE_WIDTH$}  {words}", line.to_string())?;
    }
    Ok(())
}
