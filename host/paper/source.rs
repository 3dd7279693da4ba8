//! Papers, as files or from standard input.

use crate::options::{usage, Options};
use crate::{Console, Status, Trouble};
use calls::tape::{KINDS, WIDE_KINDS};
use calls::text::{self, Paper};
use calls::{Shape, PAGE};
use std::fs::File;
use std::io::Read;

/// A paper and where it came from.
pub struct Source {
    /// The name to be told with a mistake.
    pub name: String,
    /// The paper, its board as the command line has it where that says anything.
    pub paper: Paper,
    /// Whether it was a tape.
    pub is_tape: bool,
    /// The kinds that its tape may have.
    kinds: u8,
}

impl Source {
    /// The paper that a word names: a file, or standard input if it is `-` or there is none.
    pub fn read(
        word: Option<&str>,
        options: &Options,
        console: &mut Console,
    ) -> Result<Source, Trouble> {
        let (name, bytes) = bytes(word, console)?;
        let is_tape = match (options.has("tape"), options.has("text")) {
            (true, true) => return Err(usage("--tape and --text are both given")),
            (false, false) => looks_like_tape(&bytes),
            (tape, _) => tape,
        };
        let mut source = if is_tape {
            Source::of_tape(name, &bytes, options)
        } else {
            Source::of_text(name, &bytes, options)?
        };
        let board = &mut source.paper.board;
        board.frames = options.number("frames")?.or(board.frames);
        board.from = options.number("from")?.or(board.from);
        board.levels = options.number("levels")?.or(board.levels);
        if let Some(from) = board.from.filter(|from| from % PAGE != 0) {
            let begins = from - from % PAGE;
            console
                .note(&format!("the board begins at {begins:#x}, with the frame of {from:#x}"))?;
        }
        Ok(source)
    }

    /// The paper of a tape: any bytes are one, though it may be malformed.
    pub fn of_tape(name: String, bytes: &[u8], options: &Options) -> Source {
        let kinds = kinds(options);
        Source { name, paper: Paper::of_tape(bytes, kinds), is_tape: true, kinds }
    }

    /// The paper of a text. What its `bytes` lines have must be what a tape cannot be read on with.
    pub fn of_text(name: String, bytes: &[u8], options: &Options) -> Result<Source, Trouble> {
        let paper = match text::parse(bytes) {
            Ok(paper) => paper,
            Err(mistakes) => return Err(Trouble::Mistakes(name, mistakes)),
        };
        let kinds = kinds(options);
        match Paper::of_tape(&paper.rest, kinds).calls.first() {
            Some(call) => Err(Trouble::Said(format!(
                "{name}: its bytes begin with a whole call, `{}`, which belongs on a line of its own",
                text::call(call)
            ))),
            None => Ok(Source { name, paper, is_tape: false, kinds }),
        }
    }

    /// How a run ends that did what the paper says. Of a malformed tape it is told what is wrong.
    pub fn status(&self, console: &mut Console) -> Result<Status, Trouble> {
        let rest = &self.paper.rest;
        let kind = match rest.first() {
            Some(kind) => *kind,
            None => return Ok(Status::Done),
        };
        let why = match Shape::of(kind) {
            None => format!("there is no kind {kind}"),
            Some(Shape { name, .. }) if kind > self.kinds => {
                format!("kind {kind}, {name}, is one of a wide tape, which --wide reads")
            }
            Some(shape) if length(shape) > rest.len() => format!("a {} ends too early", shape.name),
            Some(Shape { name, .. }) => format!("a truth value of {name} is neither 0 nor 1"),
        };
        let (name, at) = (&self.name, offset(&self.paper));
        console.note(&format!("{name}: malformed from byte {at} on: {why}"))?;
        Ok(Status::Malformed)
    }
}

/// Where the calls of a paper's tape end.
pub fn offset(paper: &Paper) -> u64 {
    paper.calls.iter().map(|call| length(call.shape()) as u64).sum()
}

/// How many bytes a call has on a tape.
fn length(shape: &Shape) -> usize {
    1 + shape.fields.iter().map(|(_, width)| width).sum::<usize>()
}

/// The kinds that a tape may have.
pub fn kinds(options: &Options) -> u8 {
    if options.has("wide") {
        WIDE_KINDS
    } else {
        KINDS
    }
}

/// A file's bytes, or standard input's, and the name to tell.
pub fn bytes(word: Option<&str>, console: &mut Console) -> Result<(String, Vec<u8>), Trouble> {
    match word {
        None | Some("-") => {
            let name = "standard input".to_string();
            if console.input_is_terminal {
                console.note("reading standard input, up to Ctrl-D")?;
            }
            whole(name, console.input())
        }
        Some(file) => match File::open(file) {
            Ok(mut open) => whole(file.to_string(), &mut open),
            Err(why) => Err(Trouble::File(file.to_string(), why)),
        },
    }
}

/// The most bytes that are read of a paper or of answers: streams that do not end are told so.
const MOST_BYTES: u64 = 1 << 30;

/// All that a stream has, and its name.
fn whole(name: String, stream: &mut dyn Read) -> Result<(String, Vec<u8>), Trouble> {
    let mut bytes = Vec::new();
    match stream.take(MOST_BYTES + 1).read_to_end(&mut bytes) {
        Ok(_) if bytes.len() as u64 > MOST_BYTES => {
            Err(Trouble::Said(format!("{name}: more than {MOST_BYTES} bytes")))
        }
        Ok(_) => Ok((name, bytes)),
        Err(why) => Err(Trouble::File(name, why)),
    }
}

/// A tape begins with a kind, and no text with so low a byte. Three kinds of wide tapes are also bytes that a text may
/// begin with; behind them a zero tells an address, of which a text has none.
pub fn looks_like_tape(bytes: &[u8]) -> bool {
    match bytes.first() {
        Some(b'\t' | b'\n' | b'\r') => bytes.iter().take(9).any(|byte| *byte == 0),
        Some(first) => *first < b' ',
        None => false,
    }
}
