//! The key program beside the Rust: tapes are played through `crates/key/out/key`, and what it prints is
//! compared byte for byte with the key of the same tape. That key is made here from the answers of the
//! fuzz's model of document 01; where a call lies in the domain of equality, the Rust must give the same
//! answer.
//!
//! `ends.rs`: reads, writes and programs that fail, directly and through `./run`.
//!
//! Prints `ok NAME` or `FAILED NAME: why` for each check and ends with the two counts.
//!
//! Usage: keys [--seed S] [--tapes N]

mod ends;
#[path = "../shared/guard.rs"]
mod guard;
#[path = "../shared/model/mod.rs"]
mod model;
#[path = "../shared/options.rs"]
mod options;
#[path = "../shared/port.rs"]
mod port;
mod process;
#[path = "../shared/report.rs"]
mod report;

use calls::{tape, Call};
use gadulnos::raw::{Line, Parts, LEVELS};
use model::Model;
use options::Options;
use port::Port;
use report::{equal, holds, Checked, Report};
use rinux::oracle::Board;
use std::io::Write;
use std::path::Path;
use std::process::{Command, Stdio};
use std::thread;
use trial::domain::{self, Verdict};
use trial::generate::{any_call, Generator, Profile, Random};
use trial::minimise;

const PROGRAM: &str = "crates/key/out/key";

/// Document 01's board: 16 frames from 0x100000.
const MEMORY: (u64, u64) = (0x10_0000, 0x11_0000);

/// The key program knows kinds 1 to 6.
const KINDS: u8 = 6;

fn main() {
    let options = Options::read("keys", "tapes", 150);
    guard::watch();
    let mut report = Report::default();
    if !Path::new(PROGRAM).exists() {
        report.check("keys", Err(format!("{PROGRAM} is missing: `host/key.sh` makes it")));
        report.finish();
    }
    report.check("keys: the worked example", worked_example());
    report.tell("keys: malformed ends", malformed(&options));
    report.tell("keys: tapes inside the domain, beside the Rust", inside(&options));
    report.tell("keys: tapes of any calls", any_calls(&options));
    report.tell("keys: tapes of any bytes", any_bytes(&options));
    report.tell("keys: long tapes", long(&options));
    report.tell("keys: tapes that come in pieces", pieces(&options));
    match draw_any(&mut options.random(7), 9000) {
        Ok(calls) => ends::check(&mut report, &tape::serialise(&calls)),
        Err(why) => report.check("keys: ends", Err(why)),
    }
    report.finish();
}

/// What the program prints for a tape that is written to it in pieces of so many bytes.
fn printed(tape: &[u8], piece: usize) -> Result<String, String> {
    let say = |why: std::io::Error| format!("{PROGRAM}: {why}");
    guard::within(60);
    let mut child =
        Command::new(PROGRAM).stdin(Stdio::piped()).stdout(Stdio::piped()).spawn().map_err(say)?;
    let mut input = child.stdin.take().ok_or("no standard input")?;
    let tape = tape.to_vec();
    // A program that ends before the tape does closes the pipe, so that a write fails.
    let writer = thread::spawn(move || {
        let _ = tape.chunks(piece.max(1)).try_for_each(|piece| input.write_all(piece));
    });
    let output = child.wait_with_output().map_err(say)?;
    writer.join().map_err(|_| "the writer failed")?;
    equal(output.status.code(), Some(0))?;
    String::from_utf8(output.stdout).map_err(|_| "bytes that are no text".to_string())
}

/// The key of a tape, by the model of document 01, which knows nothing of the port.
fn key(tape: &[u8]) -> Result<String, String> {
    let tape = tape::parse(tape, KINDS);
    let mut board = Model::of(&Parts::lend(16));
    equal(board.start(true, MEMORY.0, MEMORY.1, LEVELS), Line::met(0))?;
    let mut text = String::new();
    for call in &tape.calls {
        text += &line(call, board.play(call).line);
    }
    holds(!board.gave_up, "releases that are not too long for the model")?;
    if let Some(offset) = tape.broken {
        text += &format!("tape {offset}\n");
    }
    let frames = board.frames.ok_or("the model's frame record")?;
    Ok(text + &format!("frames {}\n", frames.allocated))
}

fn line(call: &Call, line: Line) -> String {
    format!("{} {} {:016x}\n", call.kind(), line.number, line.value)
}

fn fresh() -> Result<Port, String> {
    let mut port = port::guarded(&Parts::lend(16), guard::Against::Behind);
    equal(port.start(MEMORY.0, MEMORY.1), Line::met(0))?;
    Ok(port)
}

/// That the program prints a tape's key; else the first line that differs.
fn compare(tape: &[u8], piece: usize) -> Result<(), String> {
    let (got, wanted) = (printed(tape, piece)?, key(tape)?);
    if got == wanted {
        return Ok(());
    }
    let mut lines = got.lines().zip(wanted.lines()).enumerate();
    let first = lines.find(|(_, (got, wanted))| got != wanted);
    let start: Vec<u8> = tape.iter().copied().take(200).collect();
    Err(match first {
        Some((i, (got, wanted))) => {
            format!("line {i}: got `{got}`, wanted `{wanted}`; tape {}", tape::hex(&start))
        }
        None => format!("another number of lines or bytes; tape {}", tape::hex(&start)),
    })
}

fn worked_tape() -> Vec<u8> {
    tape::serialise(&[
        Call::Vmalloc { size: 1 },
        Call::Translate { addr: 0xffff_ffc0_0000_0010 },
        Call::Vfree { addr: 0xffff_ffc0_0000_0000 },
        Call::Mmap { given: false, addr: 0, size: 5000, prot: 2, flags: 0 },
    ])
}

/// The tape and the lines that stand in document 01.
fn worked_example() -> Result<(), String> {
    let bytes = worked_tape();
    let wanted = "1 0 ffffffc000000000\n6 0 0000000000101010\n2 0 0000000000000000\n\
                  3 0 0000100000000000\nframes 9\n";
    equal(printed(&bytes, bytes.len())?.as_str(), wanted)?;
    equal(printed(&[], 1)?.as_str(), "frames 1\n")
}

/// Every kind cut off at every length, unknown kinds, and other first bytes in kind 3, each at the
/// front and after a call.
fn malformed(options: &Options) -> Checked {
    let mut random = options.random(1);
    let mut ends: Vec<Vec<u8>> = Vec::new();
    for kind in 1..=KINDS {
        let whole = tape::serialise(&[any_call(&mut random, kind)]);
        ends.extend((1..whole.len()).map(|length| whole[..length].to_vec()));
    }
    ends.extend([0, 7, 8, 14, 20, 127, 128, 255].map(|kind| vec![kind]));
    for given in [2, 3, 127, 255] {
        let mut mmap = tape::serialise(&[any_call(&mut random, 3)]);
        mmap[1] = given;
        ends.push(mmap[..2].to_vec());
        ends.push(mmap);
    }
    let before = tape::serialise(&[Call::Vmalloc { size: 1 }]);
    for end in &ends {
        compare(end, end.len())?;
        compare(&[&before, &end[..]].concat(), before.len() + 1)?;
        let rest = [&end[..], &before, &before, &before, &before].concat();
        compare(&rest, rest.len())?;
    }
    Ok(3 * ends.len() as u64)
}

/// Random calls that lie in the domain, drawn on the Rust's board, with the Rust's answers.
fn inside(options: &Options) -> Checked {
    let mut cases = 0;
    for i in 0..options.amount {
        let mut random = options.nth(2, i);
        let profile = random.one_of(&[Profile::Release, Profile::Faults, Profile::Everything]);
        let mut generator = Generator::new(random.word(), profile);
        let calls = draw_inside(&mut random, &mut generator)?;
        let bytes = tape::serialise(&calls);
        compare(&bytes, bytes.len()).map_err(|why| format!("{}: {why}", generator.label()))?;
        cases += calls.len() as u64;
    }
    Ok(cases)
}

fn draw_inside(random: &mut Random, generator: &mut Generator) -> Result<Vec<Call>, String> {
    let mut board = Board::start(MEMORY.0, MEMORY.1).map_err(|why| format!("{why:?}"))?;
    let mut port = fresh()?;
    let mut calls = Vec::new();
    for _ in 0..5 + random.below(60) {
        let call = generator.next(&board.state());
        let inside =
            matches!(domain::read(&board.state(), &call).verdict, Verdict::Inside | Verdict::Edge);
        if call.kind() > KINDS || !inside {
            continue;
        }
        let (outcome, line) = (board.play(&call), port::play(&mut port, &call).line);
        calls.push(call);
        let agrees = line.number < 32 && outcome.agrees(line.number as u32, line.value);
        let told = minimise::describe(&calls);
        holds(agrees, &format!("{} from\n{told}", outcome.key_line(call.kind())))?;
        equal(port.frames().allocated, board.state().allocated)?;
    }
    Ok(calls)
}

/// Random calls, most of them drawn to what stands, whether they lie in the domain or not.
fn draw_any(random: &mut Random, count: u64) -> Result<Vec<Call>, String> {
    let mut generator = Generator::new(random.word(), Profile::Everything);
    port::draw(random, &mut generator, &mut fresh()?, count, KINDS)
}

fn any_calls(options: &Options) -> Checked {
    for i in 0..options.amount {
        let mut random = options.nth(3, i);
        let count = 1 + random.below(60);
        let bytes = tape::serialise(&draw_any(&mut random, count)?);
        compare(&bytes, bytes.len()).map_err(|why| format!("tape {i}: {why}"))?;
    }
    Ok(options.amount)
}

/// Random bytes, small ones most often, so that kinds are known ones.
fn any_bytes(options: &Options) -> Checked {
    for i in 0..options.amount {
        let mut random = options.nth(4, i);
        let most = random.one_of(&[2, 7, 7, 7, 256]);
        let bytes: Vec<u8> = (0..random.below(200)).map(|_| random.below(most) as u8).collect();
        compare(&bytes, bytes.len()).map_err(|why| format!("tape {i}: {why}"))?;
    }
    Ok(options.amount)
}

/// Tapes of many calls, cut around sizes at which a reader's pieces may end.
fn long(options: &Options) -> Checked {
    let mut random = options.random(5);
    let bytes = tape::serialise(&draw_any(&mut random, 6000)?);
    let mut cases = 0;
    for size in [512, 1024, 4096, 8192, 16384, 32768, 65536] {
        for cut in [size - 1, size, size + 1, size + 9] {
            compare(&bytes[..cut.min(bytes.len())], cut)?;
            cases += 1;
        }
    }
    let many = bytes.repeat(20);
    compare(&many, many.len())?;
    Ok(cases + 1)
}

/// The same tape written in pieces of other sizes.
fn pieces(options: &Options) -> Checked {
    let mut random = options.random(6);
    let bytes = tape::serialise(&draw_any(&mut random, 60)?);
    for piece in 1..40 {
        compare(&bytes, piece)?;
    }
    Ok(39)
}
