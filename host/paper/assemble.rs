//! `paper assemble` and `paper disassemble`: texts to tapes and back.

use crate::options::{Choice, Options, Verb, OUT};
use crate::{output, source, Console, Source, Status, Trouble};
use calls::text::{self, Setting};

/// Makes a tape.
pub const ASSEMBLE: Verb = Verb {
    name: "assemble",
    words: "[PAPER]",
    most_words: 1,
    about: "makes a tape of a paper's text",
    more: "\
The tape is document 01's, which `./run` reads: kinds 1 to 6 (docs/TAPE.md). A call that it does
not have is named, and nothing is written, unless --wide is given. A tape has no place for a board:
where the text names one, it must be told again when the tape is played.",
    choices: &[
        &[Choice { name: "wide", value: "", about: "a tape with all calls, kinds up to 21" }],
        OUT,
    ],
    example: "paper assemble exam.txt --out exam.tape",
    run: assemble,
};

/// Makes a text.
pub const DISASSEMBLE: Verb = Verb {
    name: "disassemble",
    words: "[TAPE]",
    most_words: 1,
    about: "makes a text of a tape",
    more: "\
A call a line; `paper assemble` makes the same tape of it, byte for byte. What stands behind the
last whole call of a malformed tape comes as lines `bytes ..`, and the status is 2.",
    choices: &[
        &[Choice { name: "wide", value: "", about: "the tape may have kinds up to 21" }],
        OUT,
    ],
    example: "paper disassemble exam.tape --out exam.txt",
    run: disassemble,
};

fn assemble(options: &Options, console: &mut Console) -> Result<Status, Trouble> {
    let (name, bytes) = source::bytes(options.word(0), console)?;
    if source::looks_like_tape(&bytes) {
        return Err(Trouble::Said(format!(
            "{name} is a tape; `paper disassemble` makes a text of it"
        )));
    }
    let source = Source::of_text(name, &bytes, options)?;
    let paper = &source.paper;
    let tape = paper.to_tape(source::kinds(options)).map_err(|at| unknown(&source, at))?;
    if console.output_is_terminal && output::name(options).is_none() {
        let words =
            "a tape is no text for a terminal: --out FILE writes a file, > or | will do too";
        return Err(Trouble::Said(words.to_string()));
    }
    if paper.board != Setting::default() {
        let name = &source.name;
        console
            .note(&format!("{name}: a tape does not name its board, which must be told again"))?;
    }
    output::deliver(&tape, options, console)?;
    Ok(Status::Done)
}

/// That a tape of document 01 does not have a call.
fn unknown(source: &Source, at: usize) -> Trouble {
    let call = source.paper.calls.get(at).map(text::call).unwrap_or_default();
    let line = source.paper.lines.get(at).copied().unwrap_or_default();
    Trouble::Said(format!(
        "{}:{line}: `{call}` is no call of document 01's tape, which has kinds 1 to 6; --wide takes it",
        source.name
    ))
}

fn disassemble(options: &Options, console: &mut Console) -> Result<Status, Trouble> {
    let (name, bytes) = source::bytes(options.word(0), console)?;
    let source = Source::of_tape(name, &bytes, options);
    output::deliver(text::print(&source.paper).as_bytes(), options, console)?;
    source.status(console)
}
