//! Plays a call tape on the original Rust and prints what the key program would print.
//! A set of numbers such as 11|13 stands where the Rust does not tell them apart.

use rinux::oracle::domain::{self, Sequence, Verdict};
use rinux::oracle::generate::{Generator, Profile};
use rinux::oracle::{tape, Board, Call};
use std::io::Read;
use std::{env, fs, io, process};

const USAGE: &str = "usage: oracle [--frames N] [--start ADDR] [--state] [--key] TAPE|-
       oracle [--state] [--save FILE] --random SEED PROFILE
  --key: only kinds 1 to 6 are known, as in the key program
  --random: plays random calls on a random board; profiles: release, faults, frames, protections, everything";

#[derive(Default)]
struct Options {
    frames: Option<u64>,
    start: Option<u64>,
    state: bool,
    key: bool,
    save: Option<String>,
    random: Option<(u64, Profile)>,
    tape: Option<String>,
}

fn main() {
    let options = read_options(env::args().skip(1)).unwrap_or_else(|| fail(USAGE));
    match (&options.random, &options.tape) {
        (Some((seed, profile)), None) => play_random(&options, Generator::new(*seed, *profile)),
        (None, Some(path)) => play_tape(&options, &read_tape(path)),
        _ => fail(USAGE),
    }
}

fn read_options(mut words: impl Iterator<Item = String>) -> Option<Options> {
    let mut options = Options::default();
    while let Some(word) = words.next() {
        match word.as_str() {
            "--frames" => options.frames = Some(number(&words.next()?)?),
            "--start" => options.start = Some(number(&words.next()?)?),
            "--state" => options.state = true,
            "--key" => options.key = true,
            "--save" => options.save = Some(words.next()?),
            "--random" => {
                options.random = Some((number(&words.next()?)?, Profile::named(&words.next()?)?))
            }
            _ if options.tape.is_none() => options.tape = Some(word),
            _ => return None,
        }
    }
    Some(options)
}

/// A number in decimal, or in hexadecimal after 0x.
fn number(word: &str) -> Option<u64> {
    match word.strip_prefix("0x") {
        Some(digits) => u64::from_str_radix(digits, 16).ok(),
        None => word.parse().ok(),
    }
}

fn read_tape(path: &str) -> Vec<u8> {
    let mut bytes = Vec::new();
    let read = match path {
        "-" => io::stdin().read_to_end(&mut bytes).map(|_| ()),
        _ => fs::read(path).map(|all| bytes = all),
    };
    if let Err(why) = read {
        fail(&format!("{path}: {why}"));
    }
    bytes
}

fn play_tape(options: &Options, bytes: &[u8]) {
    let start = options.start.unwrap_or(0x10_0000);
    let mut board =
        start_board(start, start.saturating_add(options.frames.unwrap_or(16).saturating_mul(4096)));
    let tape = tape::parse(bytes, if options.key { 6 } else { 20 });
    let mut sequence = Sequence::default();
    for call in &tape.calls {
        if !play_call(options, &mut board, &mut sequence, call) {
            fail("the Rust would access memory outside the board");
        }
    }
    if let Some(offset) = tape.broken {
        println!("tape {offset}");
    }
    println!("frames {}", board.state().allocated);
}

/// Plays one call and prints its line. False if the call must not be made.
fn play_call(options: &Options, board: &mut Board, sequence: &mut Sequence, call: &Call) -> bool {
    let reading = sequence.read(&board.state(), call);
    if let Verdict::Outside(reason) = reading.verdict {
        eprintln!("{call}: outside the domain of equality ({reason:?})");
    }
    if !reading.safe {
        return false;
    }
    let outcome = board.play(call);
    if outcome.panicked {
        eprintln!("{call}: {}", outcome.what);
    }
    println!("{}", outcome.key_line(call.kind()));
    if options.state {
        print!("{}", board.state().print());
    }
    true
}

/// Plays calls inside the domain, and saves them as a tape if asked to.
fn play_random(options: &Options, mut generator: Generator) {
    let (start, end) = generator.board();
    println!("{} memory {start:#x} to {end:#x}", generator.label());
    let mut board = start_board(start, end);
    let mut calls = Vec::new();
    for _ in 0..generator.length() {
        let call = generator.next(&board.state());
        if domain::read(&board.state(), &call).verdict == Verdict::Inside {
            println!("# {call}");
            play_call(options, &mut board, &mut Sequence::default(), &call);
            calls.push(call);
        }
    }
    println!("frames {}", board.state().allocated);
    if let Some(path) = &options.save {
        if let Err(why) = fs::write(path, tape::serialise(&calls)) {
            fail(&format!("{path}: {why}"));
        }
    }
}

fn start_board(start: u64, end: u64) -> Board {
    Board::start(start, end)
        .unwrap_or_else(|why| fail(&format!("no board from {start:#x} to {end:#x}: {why:?}")))
}

fn fail(why: &str) -> ! {
    eprintln!("{why}");
    process::exit(1);
}
