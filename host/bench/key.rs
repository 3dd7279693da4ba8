//! The key program on a long tape, beside the oracle's play of the same calls, and beside `same`, which
//! reads the tape, makes its calls and writes their lines. The program's time is that of a run from file
//! to file, less that of a run on an empty tape; the other two write into memory.

use crate::same;
use crate::sides::{Rust, Same, Side};
use crate::table::{agreed, Row, Table};
use crate::trio::{state, Trio, START};
use crate::SMALL;
use calls::{tape, Call, PAGE, USER_WINDOW};
use gadulnos::raw::{Frames, Line, Parts};
use std::fmt::Write;
use std::fs::{self, File};
use std::process::Command;
use std::time::Instant;
use trial::generate::Random;

const PROGRAM: &str = "crates/key/out/key";
const TAPE: &str = "target/host/bench.tape";
const KEY: &str = "target/host/bench.key";
const CALLS: usize = 100_000;
const END: u64 = START + SMALL * PAGE;

pub fn row(table: &mut Table) {
    let on = format!("{CALLS} calls, {SMALL} frames");
    let row = Row { what: "the key program, a call", on, goal: None, main: true };
    if !table.wants(&row) {
        return;
    }
    let name = row.name();
    let calls = draw();
    let bytes = tape::serialise(&calls);
    agreed(&name, "before it", fs::write(TAPE, &bytes).map_err(|why| format!("{TAPE}: {why}")));
    let mut trio = Trio::start(SMALL);
    let Trio { rust, same, .. } = &mut trio;
    let rust = rust.as_mut().expect("a board of four levels");
    let (_, key) = of_rust(rust, &calls);
    // The time of a call, from a side whose key is the Rust's.
    let time_of = |side: &str, (time, got): (f64, String)| {
        let told = if got == key { Ok(()) } else { Err(format!("the key of {side}")) };
        agreed(&name, "on its tape", told);
        time / CALLS as f64
    };
    let sides: [&mut dyn FnMut() -> f64; 3] = [
        &mut || match of_program() {
            Ok(told) => time_of("the program", told),
            Err(why) => time_of(&why, (0.0, String::new())),
        },
        &mut || time_of("the Rust", of_rust(rust, &calls)),
        &mut || time_of("same", of_same(same, &bytes)),
    ];
    table.time(row, sides.map(Some));
    let difference = match state(&same.board) {
        Some(state) => rust.board.state().difference(&state),
        None => Some("parts that stand for no state".to_string()),
    };
    agreed(&name, "after its rounds", difference.map_or(Ok(()), Err));
}

/// A mix of calls on the key program's board, which stays as full as it is: up to two regions of up to
/// two pages in either list, and no fault that is met, since no call of the tape takes its page back.
fn draw() -> Vec<Call> {
    let mut random = Random::new(1);
    let mut board = Parts::lend(SMALL as usize);
    assert_eq!(board.start(START, END), Line::met(0));
    let (mut kernel, mut user) = (Vec::new(), [None; 2]);
    let next = |_| {
        let (slot, size) = (random.below(2) as usize, 1 + random.below(2 * PAGE));
        let addr = USER_WINDOW.0 + 2 * PAGE * slot as u64;
        match random.below(8) {
            0 | 1 if kernel.len() < 2 => {
                kernel.push(board.vmalloc(size).value);
                Call::Vmalloc { size }
            }
            0 | 1 => {
                let addr = kernel.remove(slot);
                board.vfree(addr);
                Call::Vfree { addr }
            }
            2 | 3 => match user[slot].take() {
                Some(size) => Call::Munmap { addr, size },
                None => {
                    user[slot] = Some(size);
                    Call::Mmap { given: true, addr, size, prot: 3, flags: 0x22 }
                }
            },
            4 | 5 => Call::Translate { addr: addr + random.below(2 * PAGE) },
            6 => Call::Translate { addr: kernel.first().map_or(5, |addr| addr + 5) },
            _ => random.one_of(&[
                Call::Vmalloc { size: 0 },
                Call::Vfree { addr: 1 },
                Call::Munmap { addr: 1 << 20, size },
                Call::Fault { addr, code: 5 },
                Call::Fault { addr, code: 3 },
            ]),
        }
    };
    (0..CALLS).map(next).collect()
}

/// The key program's run on the tape: its nanoseconds, and its key.
fn of_program() -> Result<(f64, String), String> {
    let run = |tape: &str| {
        let (input, output) = (File::open(tape)?, File::create(KEY)?);
        let begun = Instant::now();
        let status = Command::new(PROGRAM).stdin(input).stdout(output).status()?;
        let time = begun.elapsed().as_nanos() as f64;
        let key = if status.success() { fs::read_to_string(KEY)? } else { status.to_string() };
        Ok((time, key))
    };
    let say = |why: std::io::Error| format!("{PROGRAM} (`host/key.sh` makes it): {why}");
    let (nothing, _) = run("/dev/null").map_err(say)?;
    let (time, key) = run(TAPE).map_err(say)?;
    Ok((time - nothing, key))
}

/// The oracle's play.
fn of_rust(rust: &mut Rust, calls: &[Call]) -> (f64, String) {
    rust.start(START, END);
    let begun = Instant::now();
    let mut key = String::new();
    for call in calls {
        key += &rust.board.play(call).key_line(call.kind());
        key.push('\n');
    }
    let time = begun.elapsed().as_nanos() as f64;
    (time, key + &format!("frames {}\n", rust.board.state().allocated))
}

/// The tape, read and played by `same`.
fn of_same(same: &mut Same, tape: &[u8]) -> (f64, String) {
    same.start(START, END);
    let begun = Instant::now();
    let (mut key, mut rest) = (String::new(), tape);
    while let Some((line, length)) = turn(&mut same.board, rest) {
        let _ = writeln!(key, "{} {} {:016x}", rest[0], line.number, line.value);
        rest = &rest[length..];
    }
    if !rest.is_empty() {
        let _ = writeln!(key, "tape {}", tape.len() - rest.len());
    }
    let _ = writeln!(key, "frames {}", same.board.frames().allocated);
    (begun.elapsed().as_nanos() as f64, key)
}

/// The first call of a tape, made: its line, and its length on the tape.
fn turn(board: &mut Parts, tape: &[u8]) -> Option<(Line, usize)> {
    let word = |at: usize| Some(u64::from_le_bytes(tape.get(at..at + 8)?.try_into().ok()?));
    let half = |at: usize| Some(i32::from_le_bytes(tape.get(at..at + 4)?.try_into().ok()?));
    let Frames { start_frame, total, levels, .. } = board.frames();
    let Parts { words, fields, bits, root, kernel, user, marked } = board;
    let root = *root;
    Some(match tape.first()? {
        1 => (same::vmalloc(words, fields, bits, root, kernel, word(1)?), 9),
        2 => (same::vfree(words, fields, bits, root, kernel, word(1)?).line(), 9),
        3 => {
            let given = *tape.get(1).filter(|given| **given < 2)? == 1;
            let (addr, size, prot, flags) = (word(2)?, word(10)?, half(18)?, half(22)?);
            let line = same::mmap(words, fields, bits, root, user, given, addr, size, prot, flags);
            (line, 26)
        }
        4 => (same::munmap(words, fields, bits, root, user, word(1)?, word(9)?).line(), 17),
        5 => {
            let (addr, code) = (word(1)?, word(9)?);
            (same::handle_page_fault(words, fields, bits, root, marked, addr, code).line(), 17)
        }
        6 => (same::translate(words, start_frame, total, levels, root, word(1)?), 9),
        _ => return None,
    })
}
