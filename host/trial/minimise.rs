//! Searches for a short tape that still shows a difference.

use calls::{tape, Call};
use std::time::{Duration, Instant};

/// The search ends after this time with what it has found.
const TIME: Duration = Duration::from_secs(60);

/// The shortest tape found on which `differs` still holds, with small numbers: calls are
/// dropped, long runs first, then each field is lowered as far as it goes, until neither
/// helps. `differs` must hold on `calls`.
pub fn shortest(calls: &[Call], differs: &mut dyn FnMut(&[Call]) -> bool) -> Vec<Call> {
    let mut best = calls.to_vec();
    let begun = Instant::now();
    let mut differs = |calls: &[Call]| begun.elapsed() < TIME && differs(calls);
    loop {
        let before = best.clone();
        drop_calls(&mut best, &mut differs);
        lower_fields(&mut best, &mut differs);
        if best == before {
            return best;
        }
    }
}

fn drop_calls(best: &mut Vec<Call>, differs: &mut dyn FnMut(&[Call]) -> bool) {
    let mut run = best.len();
    while run > 0 {
        let mut at = 0;
        while at < best.len() {
            let mut shorter = best.clone();
            shorter.drain(at..(at + run).min(best.len()));
            if differs(&shorter) {
                *best = shorter;
            } else {
                at += run;
            }
        }
        run /= 2;
    }
}

fn lower_fields(best: &mut Vec<Call>, differs: &mut dyn FnMut(&[Call]) -> bool) {
    for at in 0..best.len() {
        for field in 0..best[at].fields().len() {
            let value = best[at].fields()[field];
            lower(value, &mut |value| match with_field(best, at, field, value) {
                Some(calls) if differs(&calls) => {
                    *best = calls;
                    true
                }
                _ => false,
            });
        }
    }
}

/// Tries the plainest values first, then comes down in halving strides.
fn lower(mut value: u64, holds: &mut dyn FnMut(u64) -> bool) {
    let plain = [0, 1, 2, 4096];
    if plain.iter().any(|&small| small < value && holds(small)) {
        return;
    }
    let mut stride = value / 2;
    while stride > 0 {
        if stride <= value && holds(value - stride) {
            value -= stride;
        } else {
            stride /= 2;
        }
    }
}

fn with_field(calls: &[Call], at: usize, field: usize, value: u64) -> Option<Vec<Call>> {
    let mut fields = calls[at].fields();
    fields[field] = value;
    let mut calls = calls.to_vec();
    calls[at] = Call::from_fields(calls[at].kind(), &fields)?;
    Some(calls)
}

/// The calls, one a line, and the tape's bytes.
pub fn describe(calls: &[Call]) -> String {
    let lines: String = calls.iter().map(|call| format!("{call}\n")).collect();
    format!("{lines}tape {}\n", tape::hex(&tape::serialise(calls)))
}

/// Prints the shortest tape found.
pub fn print_shortest(calls: &[Call], differs: &mut dyn FnMut(&[Call]) -> bool) {
    let short = shortest(calls, differs);
    print!("{} calls, from {}:\n{}", short.len(), calls.len(), describe(&short));
}
