//! `paper translate`: an address on the board that a paper leaves.

use crate::options::{self, Choice, Options, Verb, BOARD, PAPER};
use crate::{explain, Console, Played, Source, Status, Trouble};
use calls::Call;
use gadulnos::raw::Told;
use gadulnos::{Access, Board, VirtAddr, Walk};
use std::io;

/// Translates an address.
pub const TRANSLATE: Verb = Verb {
    name: "translate",
    words: "[PAPER] ADDR",
    most_words: 2,
    about: "translates an address on the board that a paper leaves",
    more: "\
Plays the paper, then prints the physical address of ADDR, or why there is none, and what user code
may do there. Where one word stands it is the address, and the paper comes from standard input.
Either answer is one: the status is 0.",
    choices: &[
        &[Choice {
            name: "working",
            value: "",
            about: "also the entries that the translation reads, from the root down",
        }],
        PAPER,
        BOARD,
    ],
    example: "paper translate exam.txt 0xffffffc000000010 --working",
    run,
};

fn run(options: &Options, console: &mut Console) -> Result<Status, Trouble> {
    let first = options.needed(0, "an address")?;
    let (paper, addr) = match options.word(1) {
        Some(second) => (Some(first), second),
        None => (None, first),
    };
    let addr = VirtAddr::new(options::number(addr, "ADDR")?);
    let source = Source::read(paper, options, console)?;
    let board = Played::start(&source.paper)?.end();
    if options.has("working") {
        working(&board.walk(addr), console)?;
    }
    writeln!(console.output(), "{}", answer(&board, addr))?;
    writeln!(console.output(), "{}", rights(&board, addr))?;
    source.status(console)
}

/// The physical address, or why there is none.
fn answer(board: &Board, addr: VirtAddr) -> String {
    match board.translate(addr) {
        Ok(phys) => phys.to_string(),
        Err(refusal) => {
            let call = Call::Translate { addr: addr.get() };
            explain::told(&call, &Told::refused(refusal.number()))
        }
    }
}

/// What user code may do there.
fn rights(board: &Board, addr: VirtAddr) -> &'static str {
    match (board.user_may(addr, Access::Read), board.user_may(addr, Access::Write)) {
        (true, true) => "user code may read it and may write it",
        (true, false) => "user code may read it and may not write it",
        (false, true) => "user code may not read it and may write it",
        (false, false) => "user code may neither read nor write it",
    }
}

/// The entries read, with their flags behind them.
fn working(walk: &Walk, console: &mut Console) -> io::Result<()> {
    let lines: Vec<String> = walk.steps.iter().map(|step| step.to_string()).collect();
    let width = lines.iter().map(String::len).max().unwrap_or_default();
    for (line, step) in lines.iter().zip(&walk.steps) {
        writeln!(console.output(), "{line:width$}  {}", step.entry.flags())?;
    }
    Ok(())
}
