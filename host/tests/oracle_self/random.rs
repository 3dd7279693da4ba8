//! Random tapes: inside the domain the Rust neither panics nor crashes, the frames it takes
//! are those that were foreseen, and both builds agree.

use crate::checked::rinux::oracle::Board;
use crate::guard;
use crate::report::{holds, Report};
use crate::wrapping::rinux::oracle::Board as WrappingBoard;
use calls::Call;
use std::collections::BTreeMap;
use trial::answer::Outcome;
use trial::domain::{self, Verdict};
use trial::generate::{Generator, Perturbed, Profile};
use trial::state::{page_of, State};

/// How often something was seen.
type Seen = BTreeMap<String, usize>;

/// A tape that was played: its board, what was set before the calls, calls and answers, and
/// a digest of the last state.
struct Played {
    memory: (u64, u64),
    words: Vec<u64>,
    parts: Option<Perturbed>,
    calls: Vec<Call>,
    outcomes: Vec<Outcome>,
    digest: u64,
}

/// Plays as many tapes of each profile, and as many from any state.
pub fn check(report: &mut Report, tapes: u64) {
    let mut seen = Seen::new();
    for profile in Profile::ALL {
        let result =
            (0..tapes).try_for_each(|seed| play_and_replay(seed, profile, false, &mut seen));
        report.check(&format!("random: {tapes} tapes, profile {}", profile.name()), result);
    }
    let result =
        (0..tapes).try_for_each(|seed| play_and_replay(seed, Profile::Everything, true, &mut seen));
    report.check(&format!("random: {tapes} tapes from any state"), result);
    for (what, times) in &seen {
        println!("  seen {what}: {times}");
    }
    report.check("random: every answer of the Rust was met with", all_seen(&seen));
}

fn play_and_replay(
    seed: u64,
    profile: Profile,
    perturbed: bool,
    seen: &mut Seen,
) -> Result<(), String> {
    let mut generator = Generator::new(seed, profile);
    guard::at(generator.label());
    let played = play(&mut generator, perturbed, seen)
        .map_err(|why| format!("{}: {why}", generator.label()))?;
    replay(&played).map_err(|why| format!("{}: {why}", generator.label()))
}

/// Plays on the checked build what lies inside, and passes over the rest. If `perturbed`,
/// the state is changed after a third of the calls, and the tape starts there.
fn play(generator: &mut Generator, perturbed: bool, seen: &mut Seen) -> Result<Played, String> {
    let memory = generator.board();
    let board = Board::start_on(memory.0, memory.1, |words| generator.fill(words));
    let mut board = board.map_err(|why| format!("{why:?}"))?;
    let length = generator.length();
    let mut parts = None;
    if perturbed {
        for _ in 0..length / 3 {
            play_one(generator, &mut board, seen)?;
        }
        let perturbed = generator.perturb(&board.state());
        board.set(&perturbed);
        parts = Some(perturbed);
    }
    let words = board.words().to_vec();
    let (mut calls, mut outcomes) = (Vec::new(), Vec::new());
    for _ in 0..length {
        if let Some((call, outcome)) = play_one(generator, &mut board, seen)? {
            calls.push(call);
            outcomes.push(outcome);
        }
    }
    let digest = digest(&board.state());
    Ok(Played { memory, words, parts, calls, outcomes, digest })
}

/// Draws a call and plays it if it lies inside the domain.
fn play_one(
    generator: &mut Generator,
    board: &mut Board,
    seen: &mut Seen,
) -> Result<Option<(Call, Outcome)>, String> {
    let state = board.state();
    let call = generator.next(&state);
    let reading = domain::read(&state, &call);
    if reading.verdict != Verdict::Inside {
        *seen.entry(format!("{:?}", reading.verdict)).or_default() += 1;
        return Ok(None);
    }
    let rare = rare(&state, &call);
    let outcome = board.play(&call);
    holds(!outcome.panicked, &format!("no panic from {call}: {}", outcome.what))?;
    let after = board.state();
    holds(after.bitmap == reading.bitmap, &format!("the foreseen frames after {call}"))?;
    holds(after.allocated == after.marked_frames(), "the counter to equal the set bits")?;
    holds(foreseen(&call, reading.turned_away, &outcome), &format!("{call} as foreseen"))?;
    for what in [call.shape().name].into_iter().chain(rare) {
        *seen.entry(format!("{what} {}", outcome.numbers)).or_default() += 1;
    }
    Ok(Some((call, outcome)))
}

/// Whether a call was turned away with the number foreseen, or with neither 11 nor 13 if none was, as far
/// as the Rust tells.
fn foreseen(call: &Call, turned_away: Option<u32>, outcome: &Outcome) -> bool {
    match (call, turned_away) {
        (Call::Vmalloc { .. } | Call::Mmap { .. }, None) => {
            !outcome.numbers.contains(11) && !outcome.numbers.contains(13)
        }
        (_, Some(number)) => outcome.numbers.contains(number),
        _ => true,
    }
}

/// A name for calls that seldom come about.
fn rare(state: &State, call: &Call) -> Option<&'static str> {
    match *call {
        Call::Vmalloc { .. } if state.vmalloc_count == 256 => Some("vmalloc at 256 regions"),
        Call::Mmap { .. } if state.regions.len() == 256 => Some("mmap at 256 regions"),
        Call::Fault { addr, code } if code & 11 == 3 && state.marked.contains(&page_of(addr)) => {
            Some("copy")
        }
        _ => None,
    }
}

fn replay(played: &Played) -> Result<(), String> {
    let board = WrappingBoard::start(played.memory.0, played.memory.1);
    let mut board = board.map_err(|why| format!("{why:?}"))?;
    if let Some(parts) = &played.parts {
        board.set(parts);
    }
    board.words_mut().copy_from_slice(&played.words);
    for (call, outcome) in played.calls.iter().zip(&played.outcomes) {
        holds(board.play(call) == *outcome, &format!("the same answer from both builds: {call}"))?;
    }
    holds(digest(&board.state()) == played.digest, "the same last state from both builds")
}

/// A number that changes with the state, as good as surely (FNV-1a on whole words).
fn digest(state: &State) -> u64 {
    let slots = state.vmalloc().iter().flat_map(|s| [s.start, s.size, s.used.into()]);
    let regions =
        state.regions.iter().flat_map(|r| [r.start, r.size, r.prot as u64, r.flags as u64]);
    let lists = slots.chain(regions).chain(state.marked.iter().copied());
    let record = [state.allocated, state.root, state.next_addr].into_iter().chain(state.bitmap);
    let words = state.words.iter().enumerate().filter(|(_, word)| **word != 0);
    let words = words.flat_map(|(index, word)| [index as u64, *word]);
    record.chain(lists).chain(words).fold(0xcbf2_9ce4_8422_2325, |hash, word| {
        (hash ^ word).wrapping_mul(0x0000_0100_0000_01b3).rotate_left(23)
    })
}

/// What random calls must come upon, or they prove little.
fn all_seen(seen: &Seen) -> Result<(), String> {
    let wanted: [(&str, &[&str]); 12] = [
        ("vmalloc", &["0", "1", "11|13", "13", "15"]),
        ("vmalloc at 256 regions", &["0"]),
        ("copy", &["0", "11", "18"]),
        ("vfree", &["0", "16"]),
        ("mmap", &["0", "1", "2", "11", "13", "15"]),
        ("munmap", &["0", "1", "2", "16"]),
        ("fault", &["0", "5", "6", "7", "8", "11", "17", "18"]),
        ("translate", &["0", "14"]),
        ("second_fault", &["0", "5", "7", "8", "11", "17"]),
        ("map_page", &["0", "11", "12"]),
        ("unmap_page", &["0", "14"]),
        ("map_huge_page", &["0", "4", "11", "12"]),
    ];
    for (name, answers) in wanted {
        for answer in answers {
            let what = format!("{name} {answer}");
            holds(seen.contains_key(&what), &what)?;
        }
    }
    for reason in ["Sum", "Limit", "OffBoard", "FreeTable", "Copy", "Mprotect"] {
        holds(seen.contains_key(&format!("Outside({reason})")), reason)?;
    }
    Ok(())
}
