//! Translations with their working: every number beside the model's, on a board and on any numbers, and how
//! often each verdict came.

use crate::damage::walked;
use crate::model::Model;
use crate::port::{self, Port, Working};
use crate::report::{equal, holds, Report};
use crate::shot::Seen;
use calls::{KERNEL_WINDOW, PAGE, USER_WINDOW};
use gadulnos::raw::{Frames, Line, Verdict, LEVELS, MOST_LEVELS};
use std::collections::BTreeMap;
use trial::generate::Random;

/// How often each verdict came, by the levels of the walk and the entry's.
pub type Verdicts = BTreeMap<(u64, u64, u64), u64>;

/// Each verdict comes at least so often on each level that has it.
const LEAST: u64 = 10;

/// An address, mostly one along tables that stand.
pub fn address(random: &mut Random, port: &Port) -> u64 {
    let any = random.word();
    match random.below(4) {
        0 => random.one_of(&[any, any >> 16, KERNEL_WINDOW.0, USER_WINDOW.0 + PAGE]),
        _ => walked(random, &port.words, port.frames(), port.root) + any % PAGE,
    }
}

/// Shows a translation on these numbers, which the model has too: every number of its working is the model's,
/// and the answer is that of translate. The answer, and the model's.
pub fn show(
    words: &[u64],
    frames: Frames,
    model: &mut Model,
    virt: u64,
    seen: &mut Seen,
) -> Result<(Line, Line), String> {
    let Frames { start_frame, total, levels, .. } = frames;
    let root = model.root;
    let (line, working) = port::show_translate(words, frames, root, virt);
    let (wanted, numbers) = model.show_translate(virt);
    equal(working, numbers)?;
    equal(line, gadulnos::raw::translate(words, start_frame, total, levels, root, virt))?;
    count(&mut seen.verdicts, levels, &working);
    Ok((line, wanted))
}

fn count(verdicts: &mut Verdicts, levels: u64, working: &Working) {
    for row in working[1..].chunks(5).take(working[0] as usize) {
        *verdicts.entry((levels, row[0], row[4])).or_default() += 1;
    }
}

/// The verdicts that an entry of a level may have.
fn verdicts_of(level: u64) -> &'static [Verdict] {
    match level {
        1 => &[Verdict::Absent, Verdict::Last],
        2 => &[Verdict::Absent, Verdict::Outside, Verdict::Followed, Verdict::LargePage],
        _ => &[Verdict::Absent, Verdict::Outside, Verdict::Followed],
    }
}

/// Prints how often each verdict came, and checks that each came often on each level that has it, and no other,
/// unless the run was a short one.
pub fn check(report: &mut Report, seen: &Seen, rounds: u64) {
    println!("  verdicts, by levels of the walk, level and number: {:?}", seen.verdicts);
    if rounds >= 2000 {
        report.check("anything: every verdict of every level was met with", all(&seen.verdicts));
    }
}

fn all(verdicts: &Verdicts) -> Result<(), String> {
    let mut wanted = Vec::new();
    for levels in [LEVELS, MOST_LEVELS] {
        for level in 1..=levels {
            let verdicts = verdicts_of(level).iter();
            wanted.extend(verdicts.map(|verdict| (levels, level, *verdict as u64)));
        }
    }
    equal(verdicts.keys().copied().collect(), wanted)?;
    let rarest = verdicts.values().min().copied().unwrap_or(0);
    holds(rarest >= LEAST, &format!("each at least {LEAST} times, not {rarest}"))
}
