//! Papers as texts, one call a line.
//!
//! ```text
//! # Two pages for user code, one that must lie at 0x1000, and a fault behind them.
//! board frames=32
//! mmap 5000 prot=rw
//! mmap 0x1000 4096 prot=r fixed
//! fault 0x100000002000 write user
//! translate 0x100000000010
//! ```
//!
//! Words stand between spaces and tabs, a comment behind `#`. Letters may be small or capital. A call's arguments come
//! first, then its options in any order; `lines` lists both. Numbers are decimal or stand behind `0x`, with single `_`
//! between digits where one likes. A protection is `none`, letters out of `rwx`, or a number, `rw` if an mmap says
//! nothing of it; flags are names or numbers, joined by `+`. What an option says by its name joins what the same bits
//! are given behind a key, as in `fault 0 write code=4`. An mmap wishes for an address, `mmap 0x1000 5000`, or for
//! none, `mmap 5000`; what a tape then holds in the address's place stands behind `unused=`.
//!
//! A `board` line comes before the calls, and says what is not as on document 01's board. `bytes` lines come last:
//! what stands behind the last whole call of a malformed tape. So each tape has a text, and that text the same tape.
//!
//! What a call would refuse is no mistake here: a size of 0, an address inside a page, a board of seven levels.

mod bits;
mod line;
mod mistake;
mod near;
mod number;
mod paper;
mod read;
mod table;
mod write;

pub use mistake::Mistake;
pub use near::nearest;
pub use number::number;
pub use paper::{Paper, Setting};

use crate::Call;
use line::{Line, Word};

/// The most mistakes that are told of a text.
const MOST: usize = 20;

/// The paper that a text writes, or its mistakes: one for a line, and at most 20, the last of which tells that there
/// are more, if so.
///
/// ```
/// let paper = calls::text::parse(b"vmalloc 1  # a page\n\nmunmap 0x100000000000 5000").unwrap();
/// assert_eq!(paper.lines, [1, 3]);
///
/// let mistakes = calls::text::parse(b"vmalloc 1\nmunmap 0x100000000000").unwrap_err();
/// let told = "2:22: found the end of the line, wanted a size: a number in decimal or after 0x";
/// assert_eq!(mistakes[0].to_string(), told);
/// ```
pub fn parse(text: &[u8]) -> Result<Paper, Vec<Mistake>> {
    let text = text.strip_prefix("\u{feff}".as_bytes()).unwrap_or(text);
    let mut reader = Reader::default();
    let mut mistakes = Vec::new();
    for (number, bytes) in (1..).zip(text.split(|byte| *byte == b'\n')) {
        let bytes = bytes.strip_suffix(b"\r").unwrap_or(bytes);
        mistakes.extend(reader.line(number, bytes).err());
        if mistakes.len() > MOST {
            return Err(cut(mistakes));
        }
    }
    match mistakes.is_empty() {
        true => Ok(reader.paper),
        false => Err(mistakes),
    }
}

/// The first mistakes, of which there are too many to tell.
fn cut(mut mistakes: Vec<Mistake>) -> Vec<Mistake> {
    mistakes.truncate(MOST);
    if let Some(last) = mistakes.last_mut() {
        last.found = "more mistakes from here on".to_string();
        last.wanted = "those above put right first".to_string();
    }
    mistakes
}

/// The call that a line writes.
///
/// ```
/// let call = calls::text::parse_call("fault 0x1000 write user").unwrap();
/// assert_eq!(call, calls::Call::Fault { addr: 0x1000, code: 6 });
/// ```
pub fn parse_call(line: &str) -> Result<Call, Mistake> {
    read::call(&Line::read(1, line.as_bytes())?)
}

/// The text of a paper: `parse` gives its board, calls and rest again.
///
/// ```
/// let paper = calls::text::parse(b"VMALLOC 0x1388").unwrap();
/// assert_eq!(calls::text::print(&paper), "vmalloc 5000\n");
/// ```
pub fn print(paper: &Paper) -> String {
    write::paper(paper)
}

/// A call, as `print` writes it.
///
/// ```
/// let call = calls::Call::Mmap { given: false, addr: 0, size: 5000, prot: 3, flags: 0x22 };
/// assert_eq!(calls::text::call(&call), "mmap 5000 prot=rw flags=private+anonymous");
/// ```
pub fn call(call: &Call) -> String {
    write::call(call)
}

/// The syntax of each call, and what it does.
pub fn calls() -> impl Iterator<Item = (String, &'static str)> {
    table::ROWS.iter().map(|row| (write::syntax(row), row.does))
}

/// The syntax of each line that a text can have, and what it is for: the calls between the board and the rest.
pub fn lines() -> impl Iterator<Item = (String, &'static str)> {
    let board = (write::syntax(&table::BOARD), table::BOARD.does);
    let (bytes, place, does) = table::BYTES;
    [board].into_iter().chain(calls()).chain([(format!("{bytes} {place}"), does)])
}

/// A paper in the midst of being read, and where its first lines of each sort stand.
#[derive(Default)]
struct Reader {
    paper: Paper,
    board: Option<usize>,
    rest: Option<usize>,
}

impl Reader {
    fn line(&mut self, number: usize, bytes: &[u8]) -> Result<(), Mistake> {
        let line = Line::read(number, bytes)?;
        let first = match line.words.first() {
            Some(first) => first,
            None => return Ok(()),
        };
        if first.is(table::BYTES.0) {
            self.rest = self.rest.or(Some(number));
            self.paper.rest.extend(read::bytes(&line)?);
            return Ok(());
        }
        if let Some(rest) = self.rest {
            return Err(first.mistake(format!("nothing but bytes behind those of line {rest}")));
        }
        if first.is(table::BOARD.name) {
            self.board(number, first)?;
            self.paper.board = read::setting(&line)?;
            return Ok(());
        }
        self.paper.calls.push(read::call(&line)?);
        self.paper.lines.push(number);
        Ok(())
    }

    /// That a board may stand here.
    fn board(&mut self, number: usize, word: &Word) -> Result<(), Mistake> {
        match (self.board, self.paper.lines.first()) {
            (Some(board), _) => Err(word.mistake(format!("one board, and line {board} has it"))),
            (_, Some(call)) => {
                Err(word.mistake(format!("the board before the first call, on line {call}")))
            }
            (None, None) => {
                self.board = Some(number);
                Ok(())
            }
        }
    }
}
