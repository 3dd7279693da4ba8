//! Small functions to play calls on this build.

use super::rinux::oracle::{Board, Call, Outcome};
use crate::report::Report;

pub const PAGE: u64 = calls::PAGE;
pub const LAST: u64 = calls::LAST;
pub const START: u64 = 0x10_0000;

/// The name of this build.
pub fn build() -> &'static str {
    if super::rinux::oracle::CHECKED {
        "checked"
    } else {
        "wrapping"
    }
}

/// Reports a check under this build's name.
pub fn check(report: &mut Report, name: &str, result: Result<(), String>) {
    report.check(&format!("{} build: {name}", build()), result);
}

/// A fresh board.
pub fn board(frames: u64) -> Result<Board, String> {
    Board::start(START, START + frames * PAGE).map_err(|why| format!("{why:?}"))
}

/// What an answer looks like: the number or set and the value in hexadecimal, or `panic`.
pub fn answer(outcome: &Outcome) -> String {
    if outcome.panicked {
        return "panic".to_string();
    }
    format!("{} {:x}", outcome.numbers, outcome.value)
}

/// Plays calls and compares each answer.
pub fn expect(board: &mut Board, calls: &[(Call, &str)]) -> Result<(), String> {
    for (call, wanted) in calls {
        let got = answer(&board.play(call));
        if got != *wanted {
            return Err(format!("{call}: got {got}, wanted {wanted}"));
        }
    }
    Ok(())
}

pub fn mmap(size: u64) -> Call {
    Call::Mmap { given: false, addr: 0, size, prot: 2, flags: 0x22 }
}

pub fn hint(addr: u64, size: u64) -> Call {
    Call::Mmap { given: true, addr, size, prot: 2, flags: 0x22 }
}

pub fn fixed(addr: u64, size: u64) -> Call {
    Call::Mmap { given: true, addr, size, prot: 2, flags: 0x32 }
}
