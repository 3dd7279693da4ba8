//! Plays a sequence on both and compares after every call.

use crate::behind;
use crate::boards::{self, Kind, Setting};
use crate::given::Before;
use crate::port::{self, Port};
use crate::rare::{self, leaf};
use crate::report::{equal, holds, Checked};
use crate::rights::Case;
use calls::Call;
use gadulnos::raw::{Line, LEVELS, NONE};
use rinux::oracle::Board;
use std::collections::BTreeMap;
use trial::domain::{self, Reason, Verdict};
use trial::generate::Random;
use trial::minimise;
use trial::state::State;

/// How often each answer to each call came, and other things worth seeing.
pub type Seen = BTreeMap<String, u64>;

/// Draws calls and plays them on both; prints the shortest that differ.
pub fn sequence(random: &mut Random, kind: Kind, seen: &mut Seen) -> Checked {
    let (setting, mut source, mut left) = boards::settle(random, kind)?;
    let (calls, end) = play(&setting, seen, &mut |state| {
        left = left.checked_sub(1)?;
        Some(source.next(state))
    });
    if let Err(why) = end {
        let mut differs = |calls: &[Call]| replay(&setting, calls).is_err();
        let short = minimise::shortest(&calls, &mut differs);
        let (from, to) = setting.memory;
        print!("{} calls, from {}, on memory {from:#x} to {to:#x}", short.len(), calls.len());
        let near =
            if setting.near.is_some() { " and a state near one that calls lead to" } else { "" };
        print!("{near}:\n{}", minimise::describe(&short));
        let why_short = replay(&setting, &short).err();
        println!("the Rust, or the model, and the port: {}", why_short.unwrap_or_default());
        return Err(why);
    }
    Ok(calls.len() as u64)
}

fn replay(setting: &Setting, calls: &[Call]) -> Result<(), String> {
    let mut calls = calls.iter().copied();
    play(setting, &mut Seen::new(), &mut |_| calls.next()).1
}

/// Plays the calls that `next` draws on both, passing over those outside the domain, and
/// gives those played, the last being the one that differs. From an mprotect on, if it is made,
/// the model stands in the Rust's place.
fn play(
    setting: &Setting,
    seen: &mut Seen,
    next: &mut dyn FnMut(&State) -> Option<Call>,
) -> (Vec<Call>, Result<(), String>) {
    let mut calls = Vec::new();
    let (mut board, mut port) = match start_both(setting) {
        Ok(both) => both,
        Err(why) => return (calls, Err(format!("the start: {why}"))),
    };
    let mut huge = false;
    while let Some(call) = next(&board.state()) {
        let reading = domain::read(&board.state(), &call);
        match reading.verdict {
            Verdict::Outside(Reason::Mprotect) if setting.protects => {
                drop(board);
                let end = behind::play(&mut port, call, &mut calls, seen, next);
                return (calls, end);
            }
            Verdict::Outside(reason) => {
                count(seen, &format!("outside: {reason:?}"));
                continue;
            }
            Verdict::Inside | Verdict::Edge => {}
        }
        calls.push(call);
        if huge {
            count(seen, "calls with a HUGE entry on the board: 1");
        }
        match play_one(&mut board, &mut port, &call, reading.turned_away, seen) {
            Ok(line) => huge |= matches!(call, Call::MapHugePage { .. }) && line == Line::met(0),
            Err(why) => return (calls, Err(format!("{call}: {why}"))),
        }
    }
    (calls, Ok(()))
}

pub fn count(seen: &mut Seen, what: &str) {
    *seen.entry(what.to_string()).or_default() += 1;
}

/// The Rust's board and the port's, both started on the same words, the port's records holding
/// rubbish before.
fn start_both(setting: &Setting) -> Result<(Board, Port), String> {
    let (from, to) = setting.memory;
    let board = Board::start_on(from, to, |words| words.copy_from_slice(&setting.words));
    let mut board = board.map_err(|why| format!("{why:?}"))?;
    let before = port::rubbish(&mut Random::new(setting.rubbish), &setting.words);
    let mut port = port::guarded(&before, setting.against);
    equal(port.start(from, to), Line::met(0))?;
    compare(&board, &port)?;
    if let Some((words, parts)) = &setting.near {
        board.words_mut().copy_from_slice(words);
        board.set(parts);
        port = port::guarded(&port::packed(&board.state()), setting.against);
    }
    Ok((board, port))
}

fn compare(board: &Board, port: &Port) -> Result<(), String> {
    let ours = port::state(port).map_err(|part| format!("{part} of the port"))?;
    board.state().difference(&ours).map_or(Ok(()), Err)
}

/// One call on both. `turned_away` is which of 11 and 13 was foreseen, if one was: the Rust's vmalloc
/// says `None` for either.
fn play_one(
    board: &mut Board,
    port: &mut Port,
    call: &Call,
    turned_away: Option<u32>,
    seen: &mut Seen,
) -> Result<Line, String> {
    let rare = rare::names(&board.state(), call);
    let given = Before::of(board, port, call);
    let outcome = board.play(call);
    let told = port::play(port, call);
    let line = told.line;
    let number = u32::try_from(line.number).unwrap_or(u32::MAX);
    let Line { number: ours, value } = line;
    let theirs = outcome.key_line(call.kind());
    let got = format!("got number {ours} value {value:x}");
    // The Rust's says nothing of what it found of a frame.
    let value = if matches!(call, Call::DeallocateFrame { .. }) { 0 } else { value };
    holds(outcome.agrees(number, value), &format!("`{theirs}`, {got}"))?;
    if matches!(call, Call::Vmalloc { .. } | Call::Mmap { .. }) {
        let ours = Some(number).filter(|number| [11, 13].contains(number));
        holds(ours == turned_away, &format!("{turned_away:?} as foreseen, {got}"))?;
        if outcome.numbers.iter().count() > 1 {
            count(seen, &format!("vmalloc by foresight alone, {number}"));
        }
    }
    count(seen, "inside");
    count(seen, &format!("{} {number}", call.shape().name));
    rare.iter().for_each(|name| count(seen, &format!("{name}, {number}")));
    compare(board, port)?;
    match given {
        Some(before) => before.check(&board.state(), port, call, told, seen)?,
        None => equal(told.tally, NONE)?,
    }
    ask(&board.state(), port, call, seen)?;
    Ok(line)
}

/// The questions beside a call: of the address that it names whether user code may read or write there, which
/// the Rust does not have, and the three counts.
pub fn ask(state: &State, port: &Port, call: &Call, seen: &mut Seen) -> Result<(), String> {
    if let Some(virt) = rare::walked(call) {
        question(state, port, virt, seen)?;
    }
    match *call {
        Call::Translate { addr } => {
            let leaf = leaf(state, addr);
            let level = leaf.map_or("nowhere".to_string(), |(_, level)| format!("level {level}"));
            count(seen, &format!("translate to {level}"));
            Ok(())
        }
        Call::Counts => {
            let counts = [state.total - state.allocated, state.allocated, state.total];
            equal(port::counts(port), counts.map(Line::met))
        }
        _ => Ok(()),
    }
}

/// The user question, beside a direct reading of all entries.
fn question(state: &State, port: &Port, virt: u64, seen: &mut Seen) -> Result<(), String> {
    let entries = rare::entries(state, virt);
    let answers = user_may(&entries);
    for (answer, what) in answers.iter().zip(["read", "write"]) {
        count(seen, &format!("user may {what}: {}", answer.value));
    }
    let case = Case::of(LEVELS, &entries);
    count(seen, &format!("user question, {case}"));
    if let Case::Writable(2..) = case {
        count(seen, "user question, WRITABLE clear alone above the last level: 0");
    }
    equal(port::user_may(port, virt), answers)
}

/// Whether user code may read an address, and write it: each of the four entries has USER, and for a write
/// WRITABLE too, and the fourth is present. Fewer were read where nothing translates or a large page does.
fn user_may(entries: &[u64]) -> [Line; 2] {
    let is_page = entries.len() == 4 && entries[3] & 1 != 0;
    [4, 6].map(|bits| {
        let all = entries.iter().all(|word| word & bits == bits);
        Line::met((is_page && all).into())
    })
}
